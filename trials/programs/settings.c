#include <pthread.h>
#include <stdio.h>
struct settings { pthread_rwlock_t lock; int width; int height; };
struct settings shared = {PTHREAD_RWLOCK_INITIALIZER, 1, 1};
int torn[3];
int sum[3];
void look(struct settings *s, int me) {
  pthread_rwlock_rdlock(&s->lock);
  int width = s->width;
  int height = s->height;
  pthread_rwlock_unlock(&s->lock);
  if (width != height)
    torn[me] = torn[me] + 1;
  sum[me] = sum[me] + width;
}
void change(struct settings *s, int by) {
  pthread_rwlock_wrlock(&s->lock);
  s->width = s->width + by;
  s->height = s->height + by;
  pthread_rwlock_unlock(&s->lock);
}
void *reader(void *p) {
  int me = (int)p;
  for (int i = 0; i < 5; i++)
    look(&shared, me);
  return NULL;
}
void *writer(void *p) {
  for (int i = 1; i < 4; i++)
    change(&shared, i);
  return NULL;
}
int main(void) {
  pthread_t t[5];
  for (int i = 0; i < 3; i++)
    pthread_create(&t[i], NULL, reader, (void *)(long)i);
  pthread_create(&t[3], NULL, writer, NULL);
  pthread_create(&t[4], NULL, writer, NULL);
  for (int i = 0; i < 5; i++)
    pthread_join(t[i], NULL);
  for (int i = 0; i < 3; i++)
    printf("%d torn, %d\n", torn[i], sum[i]);
  printf("%d %d\n", shared.width, shared.height);
  return 0;
}
