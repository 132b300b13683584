int main(void) {
    int a = 2147483647;
    int b = 0X7fffffff;
    a = b - a;
}
