int main(void) {
putchar("a"); return 0; }
