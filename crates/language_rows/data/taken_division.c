int main(void) { int a = -7;
printf("%d %d %d\n", a / 2, a % 2, a >> 1); return 0; }
