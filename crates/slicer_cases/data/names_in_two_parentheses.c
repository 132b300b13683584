int main(void) {
    int x = 5;
    ((x)) = (x) + 1;
    int y = (((x)));
}
