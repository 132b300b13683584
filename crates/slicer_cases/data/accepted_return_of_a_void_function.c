void f(void) {
    return;
}
int main(void) {
    f();
}
