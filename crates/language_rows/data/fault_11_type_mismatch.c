int *p;
int main(void) { p = 5; return 0; }
