int main(void) {
    int x = 1;
    x = x * 2;
    int *p = &x;
    *p = 2;
}
