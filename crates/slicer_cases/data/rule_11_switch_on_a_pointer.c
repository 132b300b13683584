int main(void) {
    int *p = 0;
    switch (p) {
    default:
        break;
    }
}
