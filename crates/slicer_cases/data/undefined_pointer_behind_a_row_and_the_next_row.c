int main(void) {
    int a[2][3];
    int k = a[0] + 3 == a[1];
}
