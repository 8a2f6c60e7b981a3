int main(void) { pthread_detach(0); return 0; }
