int *a[65537];
int main(void) {
    int b[2];
    a[65535] = b;
}
