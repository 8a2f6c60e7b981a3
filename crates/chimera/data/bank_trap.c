#include <pthread.h>
#include <stdio.h>
pthread_mutex_t m = PTHREAD_MUTEX_INITIALIZER;
int a = 100;
int b = 0;
void *pay(void *p) {
pthread_mutex_lock(&m);
a = a - 10;
b = b + 10;
pthread_mutex_unlock(&m);
return NULL; }
int main(void) {
pthread_t t; pthread_t u;
pthread_create(&t, NULL, pay, NULL);
pthread_create(&u, NULL, pay, NULL);
pthread_join(t, NULL); pthread_join(u, NULL);
pthread_mutex_lock(&m);
printf("%d\n", b);
b = 100 / (b - 20);
pthread_mutex_unlock(&m);
return 0; }
