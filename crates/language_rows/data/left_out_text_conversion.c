int main(void) { printf("%s\n", 0); return 0; }
