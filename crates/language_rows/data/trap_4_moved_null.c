int main(void) { int *p = NULL;
p = p + 1; return 0; }
