/* A hash map whose buckets share four locks: each stripe of buckets has one, so that threads that count different keys seldom
   wait for each other. Four threads count the letters of a made text, and find each key again. */
#include <pthread.h>
#include <stdio.h>
#include <stdlib.h>

#define BUCKETS 16
#define STRIPES 4
#define THREADS 4
#define KEYS 8
#define STEPS 40

struct node {
  int key;
  int count;
  struct node *next;
};

struct map {
  pthread_mutex_t locks[STRIPES];
  struct node *buckets[BUCKETS];
  int sizes[STRIPES];
};

struct map map;

int bucket_of(int key) {
  return key * 7 % BUCKETS;
}

/* The node of a key, or NULL; the caller holds the lock of its stripe. */
struct node *found(struct map *m, int key) {
  struct node *n = m->buckets[bucket_of(key)];
  while (n != NULL && n->key != key) {
    n = n->next;
  }
  return n;
}

void add(struct map *m, int key, int by) {
  int at = bucket_of(key);
  pthread_mutex_t *lock = &m->locks[at % STRIPES];
  struct node *n;
  pthread_mutex_lock(lock);
  n = found(m, key);
  if (n == NULL) {
    n = malloc(sizeof(struct node));
    n->key = key;
    n->count = 0;
    n->next = m->buckets[at];
    m->buckets[at] = n;
    m->sizes[at % STRIPES]++;
  }
  n->count += by;
  pthread_mutex_unlock(lock);
}

int count_of(struct map *m, int key) {
  pthread_mutex_t *lock = &m->locks[bucket_of(key) % STRIPES];
  struct node *n;
  int count = 0;
  pthread_mutex_lock(lock);
  n = found(m, key);
  if (n != NULL) {
    count = n->count;
  }
  pthread_mutex_unlock(lock);
  return count;
}

/* The text that is counted: the letter that stands at a place, which is a key. */
int letter_at(int place) {
  return place * place % 7 + place % 4;
}

void *count_letters(void *p) {
  int me = (int)(long)p;
  for (int i = 0; i < STEPS; i++) {
    add(&map, letter_at(me * STEPS + i), 1);
  }
  return NULL;
}

int main(void) {
  pthread_t threads[THREADS];
  int sum = 0;
  int size = 0;
  for (int i = 0; i < STRIPES; i++) {
    pthread_mutex_init(&map.locks[i], NULL);
  }
  for (int i = 0; i < THREADS; i++) {
    pthread_create(&threads[i], NULL, count_letters, (void *)(long)i);
  }
  for (int i = 0; i < THREADS; i++) {
    pthread_join(threads[i], NULL);
  }
  for (int key = 0; key < KEYS; key++) {
    int count = count_of(&map, key);
    sum += count;
    printf("%c %d\n", 'a' + key, count);
  }
  for (int i = 0; i < STRIPES; i++) {
    size += map.sizes[i];
  }
  printf("%d letters, %d keys\n", sum, size);
  return 0;
}
