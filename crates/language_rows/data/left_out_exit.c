int main(void) { exit(0); }
