int main(void) { int *p = calloc(1, 1); return 0; }
