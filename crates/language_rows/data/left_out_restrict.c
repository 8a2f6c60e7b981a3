int *restrict p;
