/* A bank with two tellers. Each payment moves money from an account to the next one and takes a fee, so the balances and the
   fees come to 300 together, in whatever order the tellers pay. */
#include <pthread.h>
#include <stdio.h>

#define ACCOUNTS 3
#define TELLERS 2
#define PAYMENTS 4
#define FEE 2

pthread_mutex_t bank = PTHREAD_MUTEX_INITIALIZER;
pthread_barrier_t opening;
int balances[ACCOUNTS];
int fees;
int served[TELLERS];

void pay(int from, int to, int amount) {
  fees += FEE;
  pthread_mutex_lock(&bank);
  balances[from] -= amount + FEE;
  balances[to] += amount;
  pthread_mutex_unlock(&bank);
}

void *teller(void *p) {
  int me = (int)(long)p;
  pthread_barrier_wait(&opening);
  for (int i = 0; i < PAYMENTS; i++) {
    int from = (me + i) % ACCOUNTS;
    pay(from, (from + 1) % ACCOUNTS, 5 + i);
    served[me]++;
  }
  return NULL;
}

int total(void) {
  int sum = 0;
  pthread_mutex_lock(&bank);
  for (int i = 0; i < ACCOUNTS; i++) {
    sum += balances[i];
  }
  pthread_mutex_unlock(&bank);
  return sum;
}

int main(void) {
  pthread_t tellers[TELLERS];
  for (int i = 0; i < ACCOUNTS; i++) {
    balances[i] = 100;
  }
  pthread_barrier_init(&opening, NULL, TELLERS);
  for (int i = 0; i < TELLERS; i++) {
    pthread_create(&tellers[i], NULL, teller, (void *)(long)i);
  }
  for (int i = 0; i < TELLERS; i++) {
    pthread_join(tellers[i], NULL);
  }
  printf("balances %d, fees %d\n", total(), fees);
  if (total() + fees == 100 * ACCOUNTS) {
    puts("the books are even");
  } else {
    puts("the books are wrong");
  }
  return 0;
}
