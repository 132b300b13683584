void f(void) {
}
int main(void) {
    int x = f();
}
