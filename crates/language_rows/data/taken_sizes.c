int main(void) { printf("%d %d %d %d\n", sizeof(int), sizeof(long long), sizeof(void *),
sizeof(pthread_mutex_t)); return 0; }
