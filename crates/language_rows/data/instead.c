#include <stdio.h>
#define RED 0
#define GREEN 1
struct item { int kind; int size; };
int primes[3] = {2, 3, 5};
int calls;
int twice(int x) { return x * 2; }
int sum(int *v, int n) {
  int s = 0;
  for (int i = 0; i < n; i++) s += v[i];
  return s;
}
void print_kind(int kind) {
  calls++;
  if (kind == RED) puts("red");
  else if (kind == GREEN) puts("green");
  else puts("another");
}
void print_word(int *letters) {
  while (*letters != 0) putchar(*letters++);
  putchar('\n');
}
int main(void) {
  struct item a = {GREEN, 3}; struct item b;
  int word[4] = {'h', 'e', 'y', 0}; int copy[4];
  long hash = 4294967295;
  b.kind = a.kind; b.size = twice(a.size);
  for (int i = 0; i < 4; i++) copy[i] = word[i];
  hash = (hash + 2) % 4294967296;
  print_kind(b.kind);
  print_word(copy);
  printf("%d %d %ld %d\n", sum(primes, 3), b.size, hash, calls);
  return 0;
}
