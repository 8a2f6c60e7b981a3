int main(void) { end: return 0; }
