#include <stdio.h>
#include <stdlib.h>
int v[4] = {1, 2, 3, 4};
int *p = v;
int *h;
int main(void) {
  p = p + 2;
  h = malloc(2 * sizeof(int));
  printf("%d %d\n", *p, *h);
  return 0;
}
