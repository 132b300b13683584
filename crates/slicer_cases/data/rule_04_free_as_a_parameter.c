void f(int free) {
}
int main(void) {
}
