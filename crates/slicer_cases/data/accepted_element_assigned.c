int main(void) {
    int a[2];
    int b[2];
    a[0] = b[0];
}
