/* Readers and writers: a board of prices under a read-write lock. Two writers change all prices together, four readers look
   whether they fit each other; a barrier has all begin together. Which versions a reader sees differs from run to run; that they fit doesn't. */
#include <pthread.h>
#include <stdio.h>

#define GOODS 5
#define READERS 4
#define WRITERS 2
#define LOOKS 12
#define CHANGES 6

struct board {
  pthread_rwlock_t lock;
  int version;
  int prices[GOODS];
};

struct report {
  int looks;
  int torn;
  int first;
  int last;
};

pthread_barrier_t start;
struct board board;
struct report reports[READERS];

/* All prices of a version follow from it. */
int price_of(int version, int good) {
  return 100 + 7 * good + version * (good + 1);
}

void change(struct board *b) {
  pthread_rwlock_wrlock(&b->lock);
  b->version++;
  for (int good = 0; good < GOODS; good++) {
    b->prices[good] = price_of(b->version, good);
  }
  pthread_rwlock_unlock(&b->lock);
}

/* Gives the version that was seen, or -1 where a price isn't of it. */
int look(struct board *b) {
  int seen;
  pthread_rwlock_rdlock(&b->lock);
  seen = b->version;
  for (int good = 0; good < GOODS; good++) {
    if (b->prices[good] != price_of(b->version, good)) {
      seen = -1;
    }
  }
  pthread_rwlock_unlock(&b->lock);
  return seen;
}

void *writer(void *p) {
  pthread_barrier_wait(&start);
  for (int i = 0; i < CHANGES; i++) {
    change(&board);
  }
  return NULL;
}

void *reader(void *p) {
  struct report *own = p;
  own->first = -1;
  pthread_barrier_wait(&start);
  for (int i = 0; i < LOOKS; i++) {
    int seen = look(&board);
    own->looks++;
    if (seen < 0) {
      own->torn++;
    } else {
      if (own->first < 0) {
        own->first = seen;
      }
      own->last = seen;
    }
  }
  return NULL;
}

int main(void) {
  pthread_t readers[READERS];
  pthread_t writers[WRITERS];
  int torn = 0;
  pthread_rwlock_init(&board.lock, NULL);
  pthread_barrier_init(&start, NULL, READERS + WRITERS);
  for (int good = 0; good < GOODS; good++) {
    board.prices[good] = price_of(0, good);
  }
  for (int i = 0; i < READERS; i++) {
    pthread_create(&readers[i], NULL, reader, &reports[i]);
  }
  for (int i = 0; i < WRITERS; i++) {
    pthread_create(&writers[i], NULL, writer, NULL);
  }
  for (int i = 0; i < READERS; i++) {
    pthread_join(readers[i], NULL);
    torn += reports[i].torn;
    printf("reader %d: versions %d to %d in %d looks\n", i, reports[i].first, reports[i].last, reports[i].looks);
  }
  for (int i = 0; i < WRITERS; i++) {
    pthread_join(writers[i], NULL);
  }
  printf("version %d, %d torn\n", board.version, torn);
  pthread_rwlock_destroy(&board.lock);
  return 0;
}
