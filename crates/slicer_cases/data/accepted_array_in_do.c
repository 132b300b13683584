int main(void) {
    int x = 1;
    do {
        x = 0;
        int a[2];
    } while (x);
    int *p;
}
