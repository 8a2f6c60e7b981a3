struct s { int a; }; struct s x;
struct s f(void) { return x; }
