/* A bounded queue with two condition variables: three threads put jobs, three take them until the queue is closed.
   Who does which job differs from run to run; what the jobs come to doesn't. */
#include <pthread.h>
#include <stdio.h>

#define ROOM 4
#define MAKERS 3
#define WORKERS 3
#define EACH 20

struct queue {
  pthread_mutex_t lock;
  pthread_cond_t filled;
  pthread_cond_t emptied;
  int cells[ROOM];
  int first;
  int held;
  int closed;
  int most;
};

struct queue jobs;

/* What each worker has done: nobody else looks before it is joined. */
int done[WORKERS];
int sums[WORKERS];

void put(struct queue *q, int job) {
  pthread_mutex_lock(&q->lock);
  while (q->held == ROOM) {
    pthread_cond_wait(&q->emptied, &q->lock);
  }
  q->cells[(q->first + q->held) % ROOM] = job;
  q->held++;
  if (q->held > q->most) {
    q->most = q->held;
  }
  pthread_cond_signal(&q->filled);
  pthread_mutex_unlock(&q->lock);
}

/* Gives 0 where the queue is closed and empty, and else 1 with the job in *job. */
int take(struct queue *q, int *job) {
  int found = 0;
  pthread_mutex_lock(&q->lock);
  while (q->held == 0 && q->closed == 0) {
    pthread_cond_wait(&q->filled, &q->lock);
  }
  if (q->held > 0) {
    *job = q->cells[q->first];
    q->first = (q->first + 1) % ROOM;
    q->held--;
    found = 1;
    pthread_cond_signal(&q->emptied);
  }
  pthread_mutex_unlock(&q->lock);
  return found;
}

void close_queue(struct queue *q) {
  pthread_mutex_lock(&q->lock);
  q->closed = 1;
  pthread_cond_broadcast(&q->filled);
  pthread_mutex_unlock(&q->lock);
}

void *make(void *p) {
  int me = (int)(long)p;
  for (int i = 0; i < EACH; i++) {
    put(&jobs, me * EACH + i);
  }
  return NULL;
}

void *work(void *p) {
  int me = (int)(long)p;
  int job;
  while (take(&jobs, &job)) {
    done[me]++;
    sums[me] += job * job;
  }
  return NULL;
}

int main(void) {
  pthread_t makers[MAKERS];
  pthread_t workers[WORKERS];
  int count = 0;
  int sum = 0;
  pthread_mutex_init(&jobs.lock, NULL);
  pthread_cond_init(&jobs.filled, NULL);
  pthread_cond_init(&jobs.emptied, NULL);
  for (int i = 0; i < WORKERS; i++) {
    pthread_create(&workers[i], NULL, work, (void *)(long)i);
  }
  for (int i = 0; i < MAKERS; i++) {
    pthread_create(&makers[i], NULL, make, (void *)(long)i);
  }
  for (int i = 0; i < MAKERS; i++) {
    pthread_join(makers[i], NULL);
  }
  close_queue(&jobs);
  for (int i = 0; i < WORKERS; i++) {
    pthread_join(workers[i], NULL);
    count += done[i];
    sum += sums[i];
  }
  printf("%d jobs, sum of squares %d\n", count, sum);
  if (jobs.most <= ROOM) {
    puts("never too full");
  } else {
    puts("too full");
  }
  return 0;
}
