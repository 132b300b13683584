int main(void) {
    int x;
    int *a[] = {&x, 0};
}
