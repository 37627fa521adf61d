int a;
int main(void) {
a++; a++;
}
