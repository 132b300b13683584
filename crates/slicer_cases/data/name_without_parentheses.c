int main(void) {
    int x = 5;
    x = 1;
    int y = x;
}
