int *f(void) {
    return 0;
}
int main(void) {
    int *p = f();
    switch (p == 0) {
    default:
        break;
    }
}
