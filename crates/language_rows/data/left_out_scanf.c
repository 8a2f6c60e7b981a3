int main(void) { scanf("%d", 0); return 0; }
