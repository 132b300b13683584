int f(void) {
    return 1;
}
int main(void) {
    for (int i = f(); i < 2; i++) {
    }
}
