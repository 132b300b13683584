int main(void) {
    int a[2];
}
