/* Seven threads count into a table of eight numbers by a rule, and some meet. */
#include <pthread.h>
#include <stdio.h>
int table[8];
void *count(void *p) {
  int *seed = p;
  int at = *seed;
  int i;
  for (i = 0; i < 100; i++) {
    at = (at * 5 + 3) % 8;
    table[at] = table[at] + 1;
  }
  return NULL;
}
int main(void) {
  pthread_t t[7];
  int seed[7];
  int i;
  int sum = 0;
  for (i = 0; i < 7; i++) {
    seed[i] = i;
    pthread_create(&t[i], NULL, count, &seed[i]);
  }
  for (i = 0; i < 7; i++) pthread_join(t[i], NULL);
  for (i = 0; i < 8; i++) sum = sum + table[i];
  printf("%d\n", sum);
  return 0;
}
