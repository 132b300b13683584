int main(void) {
    int *p = &1;
}
