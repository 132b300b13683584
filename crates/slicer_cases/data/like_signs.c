int main(void) {
    int a = - - 1;
    int b = + - a - - a;
    int c = -(a+b);
}
