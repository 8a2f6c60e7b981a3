int x;
int main(void) { malloc(1); return 0; }
