void *f(void *p) { return p; } int main(void) { pthread_t t; pthread_t u; pthread_create(&t, NULL, f, NULL);
printf("%d %d\n", pthread_create(&u, NULL, f, NULL), EAGAIN); return 0; }
