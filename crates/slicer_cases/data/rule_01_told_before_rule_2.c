int main(void) {
    x = 1;
    int a;
    int a;
}
