int main(void) {
for (;;) ; }
