/* A pool of threads: main gives tasks of four kinds to three workers, waits for all of them, and ends the pool.
   A task names its work by a pointer to a function, from a table of kinds that main alone uses. Each task has a place of its own
   for its result, so the results don't depend on who does what. */
#include <pthread.h>
#include <stdio.h>
#include <stdlib.h>

#define WORKERS 3
#define TASKS 12
#define KINDS 4
#define PRIMES 3

struct task {
  int kind;
  int (*work)(int, int);
  int a;
  int b;
  int result;
  struct task *next;
};

struct pool {
  pthread_mutex_t lock;
  pthread_cond_t given;
  pthread_cond_t finished;
  struct task *first;
  struct task *last;
  int open;
  int ending;
};

struct kind {
  int (*work)(int, int);
};

struct pool pool;
struct kind kinds[KINDS];

int square(int a, int b) {
  return a * a;
}

int gcd(int a, int b) {
  while (b != 0) {
    int rest = a % b;
    a = b;
    b = rest;
  }
  return a;
}

int primes_to(int n, int b) {
  int count = 0;
  for (int i = 2; i <= n; i++) {
    int is_prime = 1;
    for (int d = 2; d * d <= i; d++) {
      if (i % d == 0) {
        is_prime = 0;
        break;
      }
    }
    count += is_prime;
  }
  return count;
}

int factorial(int n, int b) {
  return n < 2 ? 1 : n * factorial(n - 1, b);
}

void give(struct pool *p, struct task *t) {
  pthread_mutex_lock(&p->lock);
  if (p->last == NULL) {
    p->first = t;
  } else {
    p->last->next = t;
  }
  p->last = t;
  p->open++;
  pthread_cond_signal(&p->given);
  pthread_mutex_unlock(&p->lock);
}

void *work(void *argument) {
  struct pool *p = argument;
  for (;;) {
    struct task *t;
    pthread_mutex_lock(&p->lock);
    while (p->first == NULL && p->ending == 0) {
      pthread_cond_wait(&p->given, &p->lock);
    }
    t = p->first;
    if (t == NULL) {
      pthread_mutex_unlock(&p->lock);
      return NULL;
    }
    p->first = t->next;
    if (p->first == NULL) {
      p->last = NULL;
    }
    pthread_mutex_unlock(&p->lock);
    int (*do_it)(int, int) = t->work;
    t->result = do_it(t->a, t->b);
    pthread_mutex_lock(&p->lock);
    p->open--;
    pthread_cond_signal(&p->finished);
    pthread_mutex_unlock(&p->lock);
  }
}

int main(void) {
  pthread_t workers[WORKERS];
  struct task *tasks[TASKS];
  kinds[0].work = square;
  kinds[1].work = factorial;
  kinds[2].work = gcd;
  kinds[PRIMES].work = primes_to;
  for (int i = 0; i < WORKERS; i++) {
    pthread_create(&workers[i], NULL, work, &pool);
  }
  for (int i = 0; i < TASKS; i++) {
    struct task *t = malloc(sizeof(struct task));
    t->kind = i % KINDS;
    t->work = kinds[t->kind].work;
    t->a = 6 * (t->kind == PRIMES) + 4 + i % 6;
    t->b = 6;
    t->next = NULL;
    tasks[i] = t;
    give(&pool, t);
  }
  pthread_mutex_lock(&pool.lock);
  while (pool.open > 0) {
    pthread_cond_wait(&pool.finished, &pool.lock);
  }
  pool.ending = 1;
  pthread_cond_broadcast(&pool.given);
  pthread_mutex_unlock(&pool.lock);
  for (int i = 0; i < WORKERS; i++) {
    pthread_join(workers[i], NULL);
  }
  for (int i = 0; i < TASKS; i++) {
    printf("task %d of kind %d: %d\n", i, tasks[i]->kind, tasks[i]->result);
    free(tasks[i]);
  }
  return 0;
}
