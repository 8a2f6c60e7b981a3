#include <pthread.h>
#include <stdio.h>
int x;
void *add(void *p) {
  x++;
  return NULL;
}
int main(void) {
  pthread_t a; pthread_t b;
  pthread_create(&a, NULL, add, NULL);
  pthread_create(&b, NULL, add, NULL);
  pthread_join(a, NULL); pthread_join(b, NULL);
  printf("%d\n", x);
  return 0;
}
