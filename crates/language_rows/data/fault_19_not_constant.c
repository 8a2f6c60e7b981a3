int n = 3;
int v[n];
