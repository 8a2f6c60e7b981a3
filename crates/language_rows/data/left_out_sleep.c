int main(void) { sleep(1); return 0; }
