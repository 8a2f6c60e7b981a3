int main(void) { int *p = malloc(sizeof(int)); *p = 7; free(p);
printf("%d\n", *p); return 0; }
