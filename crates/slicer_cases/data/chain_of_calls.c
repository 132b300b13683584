int third(int z, int k) {
    int r = z + 1;
    int s = k + 1;
    return r;
}
int second(int y, int k) {
    int r = third(y, k);
    return r;
}
int first(int x, int k) {
    int r = second(x, k);
    k = k + r;
    return r;
}
int main(void) {
    int p = 1;
    int q = 2;
    int a = first(p, q);
    int b = first(q, p);
    a = a + 1;
}
