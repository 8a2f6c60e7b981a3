/* Four threads add to one number without a lock. */
#include <pthread.h>
#include <stdio.h>
int x;
void *add(void *p) {
  int i;
  for (i = 0; i < 300; i++) x = x + 1;
  return NULL;
}
int main(void) {
  pthread_t t[4];
  int i;
  for (i = 0; i < 4; i++) pthread_create(&t[i], NULL, add, NULL);
  for (i = 0; i < 4; i++) pthread_join(t[i], NULL);
  printf("%d\n", x);
  return 0;
}
