pthread_mutex_t m;
int main(void) { pthread_mutex_unlock(&m); return 0; }
