void f(void);
int main(void) {
}
