int main(void) { int n = 63;
return 1 << n; }
