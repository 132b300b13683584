int main(void) {
    int i = 0;
    while (i < 1) {
        i = 0;
    }
}
