int main(void) {
    // a\
    int x = 1;
}
