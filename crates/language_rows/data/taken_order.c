int v[3]; int i; int next(void) { i = i + 1; return i; }
int main(void) { v[next()] = next(); printf("%d %d\n", v[1], next() - next() * 2); return 0; }
