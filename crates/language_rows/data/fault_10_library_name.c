int x;
int free;
