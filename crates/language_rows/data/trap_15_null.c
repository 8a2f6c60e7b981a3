int x;
int main(void) { int *p = NULL; return p < &x; }
