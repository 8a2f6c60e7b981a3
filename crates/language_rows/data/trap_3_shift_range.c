int main(void) { int n = 64;
return 1 << n; }
