/* Three threads put nodes in front of one list without a lock: nodes can get lost. */
#include <pthread.h>
#include <stdio.h>
#include <stdlib.h>
struct node {
  int value;
  struct node *next;
};
struct node *head;
void *grow(void *p) {
  int i;
  for (i = 0; i < 100; i++) {
    struct node *n = malloc(sizeof(struct node));
    n->value = i;
    n->next = head;
    head = n;
  }
  return NULL;
}
int main(void) {
  pthread_t t[3];
  int i;
  int count = 0;
  struct node *n;
  for (i = 0; i < 3; i++) pthread_create(&t[i], NULL, grow, NULL);
  for (i = 0; i < 3; i++) pthread_join(t[i], NULL);
  for (n = head; n != NULL; n = n->next) count = count + 1;
  printf("%d\n", count);
  return 0;
}
