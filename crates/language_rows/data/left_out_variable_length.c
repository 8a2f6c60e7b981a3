int main(void) { int n = 3;
int v[n]; return 0; }
