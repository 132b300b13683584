int main(void) {
    int x = 1;
    do {
        int a[2];
    } while (&x);
}
