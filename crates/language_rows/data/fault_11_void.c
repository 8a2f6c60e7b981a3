int x;
void v;
