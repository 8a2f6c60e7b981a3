int main(void) { puts("a" "b"); return 0; }
