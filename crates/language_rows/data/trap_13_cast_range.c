int main(void) {
void *q = (void *)9007199254740992; return 0; }
