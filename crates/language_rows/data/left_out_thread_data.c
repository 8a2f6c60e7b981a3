int main(void) { pthread_getspecific(0); return 0; }
