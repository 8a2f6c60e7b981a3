/* Seven threads pass a barrier, and then read what their neighbours wrote before it; who is first prints. */
#include <pthread.h>
#include <stdio.h>
pthread_barrier_t b;
int before[7];
int first;
void *step(void *p) {
  int *mine = p;
  int at = *mine;
  before[at] = at * at;
  pthread_barrier_wait(&b);
  if (first == 0) {
    first = at + 1;
    printf("%d\n", before[(at + 1) % 7]);
  }
  return NULL;
}
int main(void) {
  pthread_t t[7];
  int at[7];
  int i;
  pthread_barrier_init(&b, NULL, 7);
  for (i = 0; i < 7; i++) {
    at[i] = i;
    pthread_create(&t[i], NULL, step, &at[i]);
  }
  for (i = 0; i < 7; i++) pthread_join(t[i], NULL);
  printf("%d\n", first);
  return 0;
}
