int main(void) {
    int x = 1;
    int *p = &x;
    int *q = p;
    q = 0;
}
