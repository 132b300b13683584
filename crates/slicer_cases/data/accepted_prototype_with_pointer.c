int f(int *p);
int main(void) {
}
int f(int *p) {
    return 1;
}
