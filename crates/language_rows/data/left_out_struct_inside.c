int main(void) { struct s { int a; }; return 0; }
