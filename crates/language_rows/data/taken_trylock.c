pthread_mutex_t m = PTHREAD_MUTEX_INITIALIZER;
int main(void) { printf("%d %d\n", pthread_mutex_trylock(&m), pthread_mutex_trylock(&m)); return 0; }
