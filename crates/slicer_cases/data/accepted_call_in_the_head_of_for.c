int f(void) {
    return 1;
}
int main(void) {
    int i = f();
    for (i = f(); i < 2; i++) {
    }
}
