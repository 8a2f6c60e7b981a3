int f(void) { }
int main(void) { printf("%d\n", f()); return 0; }
