FILE *f;
