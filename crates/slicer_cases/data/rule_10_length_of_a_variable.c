int main(void) {
    int n = 1;
    int a[n];
}
