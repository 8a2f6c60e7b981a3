int x;
int v[2] = {1, 2, 3};
