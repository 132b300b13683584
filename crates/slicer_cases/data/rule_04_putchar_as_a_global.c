int putchar;
int main(void) {
}
