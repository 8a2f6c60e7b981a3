#include <pthread.h>
#include <stdio.h>
pthread_rwlock_t l;
int x;
void *f(void *p) {
pthread_rwlock_rdlock(&l);
int t = x;
pthread_rwlock_unlock(&l);
return (void *)(long)t; }
int main(void) {
pthread_t a;
pthread_create(&a, NULL, f, NULL);
pthread_rwlock_rdlock(&l);
x = 5;
pthread_rwlock_unlock(&l);
pthread_join(a, NULL);
return 0; }
