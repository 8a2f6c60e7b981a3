#include <stdio.h>
#include <pthread.h>
int twice(int a) { return a + a; }
void go(void) {}
