int f(int a);
int f(int b) {
    return b;
}
int main(void) {
}
