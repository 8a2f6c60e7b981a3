/* A bounded queue: two put, two take, under a mutex and two conditions. */
#include <pthread.h>
#include <stdio.h>
pthread_mutex_t m;
pthread_cond_t filled;
pthread_cond_t emptied;
int cells[4];
int first;
int held;
int sum;
void *put(void *p) {
  int i;
  for (i = 1; i <= 10; i++) {
    pthread_mutex_lock(&m);
    while (held == 4) pthread_cond_wait(&emptied, &m);
    cells[(first + held) % 4] = i;
    held = held + 1;
    pthread_cond_signal(&filled);
    pthread_mutex_unlock(&m);
  }
  return NULL;
}
void *take(void *p) {
  int i;
  for (i = 0; i < 10; i++) {
    pthread_mutex_lock(&m);
    while (held == 0) pthread_cond_wait(&filled, &m);
    sum = sum * 3 % 1000003 + cells[first];
    first = (first + 1) % 4;
    held = held - 1;
    pthread_cond_signal(&emptied);
    pthread_mutex_unlock(&m);
  }
  return NULL;
}
int main(void) {
  pthread_t t[4];
  int i;
  for (i = 0; i < 2; i++) pthread_create(&t[i], NULL, put, NULL);
  for (i = 2; i < 4; i++) pthread_create(&t[i], NULL, take, NULL);
  for (i = 0; i < 4; i++) pthread_join(t[i], NULL);
  printf("%d\n", sum);
  return 0;
}
