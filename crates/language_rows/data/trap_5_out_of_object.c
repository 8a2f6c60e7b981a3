int v[2];
int main(void) { v[2] = 1; return 0; }
