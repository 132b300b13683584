int main(void) {
    int x = 1;
    while (&x) {
        int a[2];
    }
}
