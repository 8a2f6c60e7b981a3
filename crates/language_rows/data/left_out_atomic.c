atomic_int n;
