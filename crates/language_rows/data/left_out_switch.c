int main(void) { switch (0) { } return 0; }
