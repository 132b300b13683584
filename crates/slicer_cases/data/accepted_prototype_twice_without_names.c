int f(int);
int f(int);
int f(int b) {
    return b;
}
int main(void) {
}
