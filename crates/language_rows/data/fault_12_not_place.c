int x;
int main(void) { 3 = x; return 0; }
