int count;
int main(void) {
    count++;
}
