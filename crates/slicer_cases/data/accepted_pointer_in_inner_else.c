int main(void) {
    int x = 1;
    if (x) {
        if (&x) {
        } else {
            int *p;
        }
    }
}
