int main(void) {
switch (0) {} }
