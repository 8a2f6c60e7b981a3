/* Three threads try a lock and count how often they don't get it. */
#include <pthread.h>
#include <stdio.h>
pthread_mutex_t m;
int got;
int missed;
void *work(void *p) {
  int i;
  for (i = 0; i < 10; i++) {
    if (pthread_mutex_trylock(&m) == 0) {
      got = got + 1;
      pthread_mutex_unlock(&m);
    } else {
      missed = missed + 1;
    }
  }
  return NULL;
}
int main(void) {
  pthread_t t[3];
  int i;
  for (i = 0; i < 3; i++) pthread_create(&t[i], NULL, work, NULL);
  for (i = 0; i < 3; i++) pthread_join(t[i], NULL);
  printf("%d %d\n", got, missed);
  return 0;
}
