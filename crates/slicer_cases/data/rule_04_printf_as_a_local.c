int main(void) {
    int printf;
}
