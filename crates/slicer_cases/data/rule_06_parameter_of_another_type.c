int f(int a);
int f(char a) {
    return a;
}
int main(void) {
}
