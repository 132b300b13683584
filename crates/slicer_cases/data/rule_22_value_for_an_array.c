int main(void) {
    int a[2] = 1;
}
