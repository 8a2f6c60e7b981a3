int x;
int c = 'ab';
