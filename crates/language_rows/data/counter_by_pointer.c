#include <pthread.h>
int x;
void add(void) { x = x + 1; }
void (*work)(void) = add;
void *r(void *p) { work(); return NULL; }
int main(void) {
  pthread_t a; pthread_t b;
  pthread_create(&a, NULL, r, NULL); pthread_create(&b, NULL, r, NULL);
  pthread_join(a, NULL); pthread_join(b, NULL);
  return x;
}
