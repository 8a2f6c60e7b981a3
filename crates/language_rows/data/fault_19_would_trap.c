int x;
int y = 1 / 0;
