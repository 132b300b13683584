int main(void) {
    int x = 1;
    for (int *p; x; x--) {
    }
}
