int f(void) {
    x = 1;
    return 0;
}
