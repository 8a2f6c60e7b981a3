int main(void) { printf("%d %d %d\n", 'a', '\n', '\'');
puts("tab\there"); return 0; }
