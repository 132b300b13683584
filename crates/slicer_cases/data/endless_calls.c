int f(int a) {
    a = f(a);
    return a;
}
int main(void) {
    int x = f(1);
}
