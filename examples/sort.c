/* A parallel merge sort: each thread halves its part, gives one half to a thread of its own while there is leave for that, and
   merges the two. No two threads touch a cell at once, and no lock is needed: create and join order all. */
#include <pthread.h>
#include <stdio.h>

#define SIZE 64
#define DEPTH 2

struct part {
  int from;
  int to;
  int depth;
};

int values[SIZE];
int room[SIZE];

void insertion_sort(int from, int to) {
  for (int i = from + 1; i < to; i++) {
    int value = values[i];
    int at = i;
    while (at > from && values[at - 1] > value) {
      values[at] = values[at - 1];
      at--;
    }
    values[at] = value;
  }
}

/* Merges the sorted parts from `from` to `middle` and from `middle` to `to`. */
void merge(int from, int middle, int to) {
  int left = from;
  int right = middle;
  for (int at = from; at < to; at++) {
    if (right == to || left < middle && values[left] <= values[right]) {
      room[at] = values[left];
      left++;
    } else {
      room[at] = values[right];
      right++;
    }
  }
  for (int at = from; at < to; at++) {
    values[at] = room[at];
  }
}

void *sort(void *p) {
  struct part *own = p;
  int middle = (own->from + own->to) / 2;
  if (own->depth == 0) {
    insertion_sort(own->from, own->to);
  } else {
    struct part left = {own->from, middle, own->depth - 1};
    struct part right = {middle, own->to, own->depth - 1};
    pthread_t other;
    pthread_create(&other, NULL, sort, &left);
    sort(&right);
    pthread_join(other, NULL);
    merge(own->from, middle, own->to);
  }
  return NULL;
}

/* Numbers that look disordered. */
void fill(void) {
  int number = 17;
  for (int i = 0; i < SIZE; i++) {
    number = (number * 75 + 74) % 65537;
    values[i] = number % 1000;
  }
}

int sum(void) {
  int it = 0;
  for (int i = 0; i < SIZE; i++) {
    it += values[i];
  }
  return it;
}

int main(void) {
  struct part whole = {0, SIZE, DEPTH};
  int before;
  int disordered = 0;
  fill();
  before = sum();
  sort(&whole);
  for (int i = 1; i < SIZE; i++) {
    disordered += values[i - 1] > values[i];
  }
  printf("least %d, middle %d, greatest %d\n", values[0], values[SIZE / 2], values[SIZE - 1]);
  printf("%d disordered\n", disordered);
  if (sum() == before) {
    puts("the sum is kept");
  } else {
    puts("the sum is lost");
  }
  return 0;
}
