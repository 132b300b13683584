int main(void) {
    int n = 2;
    for (int i; n; n--) {
        i = n;
    }
    n = 5;
}
