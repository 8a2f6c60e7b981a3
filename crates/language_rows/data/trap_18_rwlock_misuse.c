pthread_rwlock_t l;
int main(void) { pthread_rwlock_unlock(&l); return 0; }
