int f(void) {
}
int main(void) {
    x = 1;
}
