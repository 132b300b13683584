int main(void) {
    int *p = NULL;
}
