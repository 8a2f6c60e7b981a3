int x;
int v[0];
