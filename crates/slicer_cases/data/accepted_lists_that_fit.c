int main(void) {
    int a[2] = {1, 2};
    int b[3] = {1,};
}
