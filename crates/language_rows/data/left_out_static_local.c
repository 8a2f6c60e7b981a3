int main(void) { static int x; return x; }
