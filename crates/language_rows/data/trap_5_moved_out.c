int v[2];
int main(void) { int *p = v + 3; return 0; }
