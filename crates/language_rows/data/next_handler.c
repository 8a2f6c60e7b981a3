#include <stdio.h>
int twice(int a) { return a + a; }
int next(int a) { return a + 1; }
int main(void) {
int (*f)(int) = twice;
int s = f(4);
f = next;
s = s + f(s);
printf("%d\n", s);
return 0; }
