#define N -3 /* a number of its own name */
int main(void) { const int x = 0x1F; // and a comment
printf("%d %d %d %d\n", N, x, 017, 10L); return 0; }
