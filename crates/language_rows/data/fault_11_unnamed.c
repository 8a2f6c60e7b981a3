int x;
int f(int) { return 0; }
