int main(void) {
    int i = 0;
    while (i < 1) {
        int *p;
        i = 1;
    }
}
