pthread_barrier_t b;
int main(void) { pthread_barrier_init(&b, NULL, 17); return 0; }
