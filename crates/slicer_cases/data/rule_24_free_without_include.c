int main(void) {
    int *p;
    free(p);
}
