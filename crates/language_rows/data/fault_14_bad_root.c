int f(int a) { return a; }
int main(void) { pthread_t t; return pthread_create(&t, NULL, f, NULL); }
