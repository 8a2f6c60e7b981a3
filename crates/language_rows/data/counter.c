#include <pthread.h>
#include <stdio.h>
int x;
void *inc(void *p) {
int t = x;
if (t >= 0)
x = t + 1;
return NULL; }
int main(void) {
pthread_t a; pthread_t b;
pthread_create(&a, NULL, inc, NULL);
pthread_create(&b, NULL, inc, NULL);
pthread_join(a, NULL); pthread_join(b, NULL);
printf("%d\n", x);
return 0; }
