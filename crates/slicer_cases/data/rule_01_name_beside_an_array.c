int main(void) {
    int a[2];
    y = 1;
}
