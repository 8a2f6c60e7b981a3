int main(void) { printf("%d %i %ld %lli %c %%\n", 1, 2, 3, 4, 65);
putchar(300); puts(""); return 0; }
