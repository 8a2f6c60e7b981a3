static inline int f(void) { return 0; }
