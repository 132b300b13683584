int main(void) {
    int a[2];
    int *p = &a[0];
    p = &a;
}
