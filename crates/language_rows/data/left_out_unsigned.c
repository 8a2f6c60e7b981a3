unsigned n;
