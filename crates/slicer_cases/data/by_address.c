void set(int *p) {
    *p = 1;
}
int main(void) {
    int x = 0;
    set(&x);
}
