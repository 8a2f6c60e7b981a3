int main(void) { sem_wait(0); return 0; }
