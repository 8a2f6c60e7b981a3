int main(void) {
printf("%d %d\n", 1); return 0; }
