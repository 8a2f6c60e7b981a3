int main(void) {
pthread_join(1, NULL); return 0; }
