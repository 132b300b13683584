#include <stdio.h>
int g;
int h;
void set(int a, int b) {
    g = a;
    h = b;
}
int main(void) {
    int x = 1;
    int y = 2;
    int u = 3;
    int v = 4;
    set(x, y);
    int k = g;
    set(u, v);
    printf("%d\n", k + h);
    printf("%d\n", u);
}
