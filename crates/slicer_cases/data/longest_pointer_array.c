int *a[65536];
int main(void) {
    int b[2];
    a[65535] = b;
}
