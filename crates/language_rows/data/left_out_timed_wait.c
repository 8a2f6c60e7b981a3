pthread_mutex_t m; pthread_cond_t c;
int main(void) { pthread_cond_timedwait(&c, &m, NULL); return 0; }
