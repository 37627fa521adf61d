int x; int main(void) { x = 2147483647; x++; return 0; }
