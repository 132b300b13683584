int main(void) {
    int print;
}
