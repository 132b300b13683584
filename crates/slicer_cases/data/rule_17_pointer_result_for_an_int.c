int *f(void) {
    return 0;
}
int main(void) {
    int x = f();
}
