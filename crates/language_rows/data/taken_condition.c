pthread_mutex_t m; pthread_cond_t c; int ready;
void *f(void *p) { pthread_mutex_lock(&m); ready = 1; pthread_cond_signal(&c); pthread_mutex_unlock(&m); return NULL; }
int main(void) { pthread_t t; pthread_create(&t, NULL, f, NULL); pthread_mutex_lock(&m);
while (ready == 0) pthread_cond_wait(&c, &m);
pthread_mutex_unlock(&m); pthread_join(t, NULL); printf("%d\n", ready); return 0; }
