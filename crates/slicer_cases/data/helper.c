int helper(int a) {
    a = a + 1;
    return a;
}
int main(void) {
    return 0;
}
