int (*a[3])(int); int main(void) { return 0; }
