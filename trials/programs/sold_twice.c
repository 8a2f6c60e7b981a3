#include <pthread.h>
#include <stdio.h>
int seats = 1;
void *sell(void *p) {
  if (seats > 0) {
    puts("sold");
    seats = seats - 1;
  }
  return NULL;
}
int main(void) {
  pthread_t a; pthread_t b;
  pthread_create(&a, NULL, sell, NULL);
  pthread_create(&b, NULL, sell, NULL);
  pthread_join(a, NULL); pthread_join(b, NULL);
  printf("%d\n", seats);
  return 0;
}
