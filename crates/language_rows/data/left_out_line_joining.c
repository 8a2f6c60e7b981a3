int x = \
1;
