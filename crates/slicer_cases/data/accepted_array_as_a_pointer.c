int main(void) {
    int a[2];
    int *p = a;
    p = &a[1];
    p += 1;
}
