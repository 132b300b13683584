int main(void) {
    do {
        ;
    } while (x);
}
