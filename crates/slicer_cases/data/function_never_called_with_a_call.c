#include <stdio.h>
int g;
void inner(int a) {
    g = a;
}
void never(int n, int m) {
    if (m > 0) {
        inner(n);
        g = g + 1;
    }
}
int main(void) {
    inner(3);
    printf("%d\n", g);
}
