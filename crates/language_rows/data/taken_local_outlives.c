int *f(void) { int x = 3; return &x; }
int main(void) { printf("%d\n", *f()); return 0; }
