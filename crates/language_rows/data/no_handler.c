int main(void) { int (*f)(int) = NULL; return f(1); }
