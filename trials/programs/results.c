/* Threads that end in a callee, hand results over, and race for a turn in a function that both call. */
#include <pthread.h>
#include <stdio.h>
int turn;
int order[64];
void note(int who) {
  order[turn] = who;
  turn = turn + 1;
}
void last(int who, void *result) {
  note(who);
  pthread_exit(result);
}
void *run(void *p) {
  int *who = p;
  int i;
  for (i = 0; i < 20; i++) note(*who);
  last(*who, p);
  return NULL;
}
int main(void) {
  pthread_t s;
  pthread_t t;
  int one = 1;
  int two = 2;
  void *r;
  int *q;
  int i;
  pthread_create(&s, NULL, run, &one);
  pthread_create(&t, NULL, run, &two);
  pthread_join(s, &r);
  q = r;
  printf("%d ", *q);
  pthread_join(t, &r);
  q = r;
  printf("%d ", *q);
  for (i = 0; i < turn; i++) printf("%d", order[i]);
  puts("");
  return 0;
}
