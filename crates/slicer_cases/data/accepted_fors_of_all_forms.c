int main(void) {
    int x;
    for (x = 0; x < 3; x++) {
        for (char y = 0; y < 2;)
            y += 1;
    }
    for (long z; x; x -= 1) {
        z = x;
    }
    for (; x;) ;
}
