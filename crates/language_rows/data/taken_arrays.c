int v[2][3] = {{1, 2}, {3}}; int n = sizeof(v) / sizeof(v[0]);
int main(void) { printf("%d %d %d\n", v[0][1], *v[1], n); return 0; }
