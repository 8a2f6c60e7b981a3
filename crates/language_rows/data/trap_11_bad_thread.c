int main(void) {
pthread_join(0, NULL); return 0; }
