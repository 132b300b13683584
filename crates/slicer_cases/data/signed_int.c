int main(void) {
    signed a = 1;
    signed int b = a;
    int signed c = b;
}
