void *f(void *p) { return p; } int main(void) { pthread_t t; void *r;
pthread_create(&t, NULL, f, (void *)5); pthread_join(t, &r); printf("%d\n", (int)r); return 0; }
