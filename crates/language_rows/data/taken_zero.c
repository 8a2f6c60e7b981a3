int main(void) { int x; int *p = malloc(sizeof(int));
printf("%d %d\n", x, *p); return 0; }
