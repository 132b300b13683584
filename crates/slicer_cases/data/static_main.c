static int main(void) {
    int x = x;
}
