int main(int argc, void **argv) { return argc; }
