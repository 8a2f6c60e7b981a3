int x;
int @ y;
