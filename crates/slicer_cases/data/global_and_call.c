int g;
int f(int a) {
    g = a;
    return a + 1;
}
int main(void) {
    int x = f(3);
}
