int main(void) {
int *p = malloc(0); return 0; }
