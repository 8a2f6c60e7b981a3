pthread_rwlock_t l;
int main(void) { pthread_rwlock_tryrdlock(&l); return 0; }
