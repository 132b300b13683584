int main(void) {
    f();
}
void f(void) {
}
