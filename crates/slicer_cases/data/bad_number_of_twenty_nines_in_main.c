int main(void) {
    int x = 99999999999999999999;
}
