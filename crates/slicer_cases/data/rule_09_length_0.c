int main(void) {
    int a[0];
}
