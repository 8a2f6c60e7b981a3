#include <pthread.h>
#include <stdio.h>
pthread_rwlock_t l = PTHREAD_RWLOCK_INITIALIZER;
int price = 1;
int seen[3];
void *reader(void *p) {
int me = (int)p;
for (int i = 0; i < 4; i++) {
pthread_rwlock_rdlock(&l);
seen[me] = seen[me] * 10 + price;
pthread_rwlock_unlock(&l); }
return NULL; }
void *writer(void *p) {
for (int i = 0; i < 3; i++) {
pthread_rwlock_wrlock(&l);
price = price + 1;
pthread_rwlock_unlock(&l); }
return NULL; }
int main(void) {
pthread_t t[4];
for (int i = 0; i < 3; i++) pthread_create(&t[i], NULL, reader, (void *)(long)i);
pthread_create(&t[3], NULL, writer, NULL);
for (int i = 0; i < 4; i++) pthread_join(t[i], NULL);
for (int i = 0; i < 3; i++) printf("%d\n", seen[i]);
pthread_rwlock_destroy(&l);
return 0; }
