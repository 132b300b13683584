int main(void) {
    int a = 1+2+3;
    a = a-(2-3)-+ +a;
}
