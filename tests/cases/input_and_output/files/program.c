int a[3];
int twice(int n) { return n + n; }
int main(void) {
    int i;
    scanf("%d", &i);
    a[i] = twice(4);
    printf("a \"%d\"\n", a[i]);
}
