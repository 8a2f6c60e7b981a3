int main(void) { long x = 1; int **p = (int **)&x;
*p = NULL; return 0; }
