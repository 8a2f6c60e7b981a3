int x;
int c = '\012';
