int main(void) { int x = 5;
x = x++ + x; printf("%d\n", x); return 0; }
