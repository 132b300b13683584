void f(int a, int a) {
}
int main(void) {
}
