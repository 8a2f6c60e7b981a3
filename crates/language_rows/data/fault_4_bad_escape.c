int main(void) {
puts("bell\a"); return 0; }
