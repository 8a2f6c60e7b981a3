int main(void) { int c = getchar();
while (c != EOF) { putchar(c); c = getchar(); } return 0; }
