int main(void) { pthread_barrier_t b; pthread_barrier_init(&b, NULL, 1);
printf("%d\n", pthread_barrier_wait(&b)); return 0; }
