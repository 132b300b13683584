int main(void) {
    putchar(65);
}
