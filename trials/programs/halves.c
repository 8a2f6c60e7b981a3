/* Two threads fill an array, one its first half and one its last, and overlap in one cell. */
#include <pthread.h>
#include <stdio.h>
int a[64];
void *low(void *p) {
  int i;
  for (i = 0; i < 33; i++) a[i] = i;
  return NULL;
}
void *high(void *p) {
  int i;
  for (i = 32; i < 64; i++) a[i] = 100 + i;
  return NULL;
}
int main(void) {
  pthread_t s;
  pthread_t t;
  int i;
  int sum = 0;
  pthread_create(&s, NULL, low, NULL);
  pthread_create(&t, NULL, high, NULL);
  pthread_join(s, NULL);
  pthread_join(t, NULL);
  for (i = 0; i < 64; i++) sum = sum + a[i];
  printf("%d %d\n", a[32], sum);
  return 0;
}
