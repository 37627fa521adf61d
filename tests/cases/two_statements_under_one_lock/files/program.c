int a;
int b;
int main(void) {
a++;
b = 1;
a = 2;
}
