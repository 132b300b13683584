int f(void) {
    x = 1;
}
int main(void) {
}
