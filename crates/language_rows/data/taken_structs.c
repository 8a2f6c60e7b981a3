struct list { int head; struct list *tail; }; static struct list a = {1, NULL}; struct list b = {2, &a};
int main(void) { printf("%d %d %d\n", sizeof(struct list), b.head, b.tail->head); return 0; }
