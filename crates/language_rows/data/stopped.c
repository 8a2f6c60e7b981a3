pthread_mutex_t m;
void *f(void *p) { int z = 0;
z = 1 / z; return NULL; }
int main(void) { pthread_t a; pthread_mutex_lock(&m);
pthread_create(&a, NULL, f, NULL); pthread_join(a, NULL); return 0; }
