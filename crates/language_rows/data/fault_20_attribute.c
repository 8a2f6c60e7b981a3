pthread_mutex_t m; int a;
int main(void) { pthread_mutex_init(&m, &a); return 0; }
