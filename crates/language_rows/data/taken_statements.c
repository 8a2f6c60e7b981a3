int main(void) { int s = 0; for (int i = 0; ; i++) { if (i == 2) continue; else if (i > 4) break; s += i; }
while (s < 20) s *= 2; do s--; while (s % 10); printf("%d\n", s); return 0; }
