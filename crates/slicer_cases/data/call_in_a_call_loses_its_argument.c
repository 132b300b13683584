#include <stdio.h>
int g;
int h;
void note(int a, int b) {
    g = a;
    h = b;
}
int run(int n) {
    note(n, n + 1);
    return g;
}
int main(void) {
    int r = run(2);
    int s = h;
    printf("%d\n", r);
    printf("%d\n", s);
}
