struct s { int a; }; struct s x; struct s y;
int main(void) { x = y; return 0; }
