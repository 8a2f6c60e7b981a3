int main(void) { int *f; printf(f); return 0; }
