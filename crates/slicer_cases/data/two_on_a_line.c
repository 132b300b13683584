int main(void) {
    int a = 1; int b = 2;
    int c = a;
    int d = b;
    int e = d; int f = c;
}
