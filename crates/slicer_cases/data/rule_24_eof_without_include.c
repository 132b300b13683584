int main(void) {
    int c = 0;
    c =
        EOF;
}
