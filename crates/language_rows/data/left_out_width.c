int main(void) { printf("%5d\n", 1); return 0; }
