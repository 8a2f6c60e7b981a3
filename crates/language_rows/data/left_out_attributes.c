pthread_mutexattr_t a;
