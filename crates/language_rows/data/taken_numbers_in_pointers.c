int main(void) { void *p = (void *)(long)5;
printf("%d %d\n", (int)p, p == NULL); return 0; }
