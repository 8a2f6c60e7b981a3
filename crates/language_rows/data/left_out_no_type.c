main(void) { return 0; }
