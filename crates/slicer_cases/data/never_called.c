#include <stdio.h>
int g;
int inner(int a) {
    g = g + a;
    return g;
}
void outer(int n) {
    while (n > 0) {
        int r = inner(n);
        n = n - 1;
    }
}
int main(void) {
    g = 4;
    printf("%d\n", g);
}
