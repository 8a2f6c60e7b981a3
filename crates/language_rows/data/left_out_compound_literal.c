int main(void) { int *p = (int *){0}; return 0; }
