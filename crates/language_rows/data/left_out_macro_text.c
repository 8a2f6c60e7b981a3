#define TWO 1 + 1
