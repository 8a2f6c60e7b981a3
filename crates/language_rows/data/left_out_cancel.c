int main(void) { pthread_cancel(0); return 0; }
