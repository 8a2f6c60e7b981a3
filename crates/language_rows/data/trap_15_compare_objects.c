int x; int y;
int main(void) { return &x < &y; }
