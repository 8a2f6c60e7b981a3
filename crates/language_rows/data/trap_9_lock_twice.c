pthread_mutex_t m;
int main(void) { pthread_mutex_lock(&m); pthread_mutex_lock(&m); }
