int f(void) {
    return 1;
}
void f(void);
int main(void) {
}
