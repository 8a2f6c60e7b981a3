int main(void) {
break; }
