pthread_rwlock_t l;
int main(void) { pthread_rwlock_rdlock(&l); pthread_rwlock_rdlock(&l); return 0; }
