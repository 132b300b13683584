int main(void) {
    int *p = 0;
    p *= 2;
}
