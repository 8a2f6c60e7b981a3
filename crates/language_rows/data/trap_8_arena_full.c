int main(void) { for (;;) {
int *p = malloc(1000); } }
