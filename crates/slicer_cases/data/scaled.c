#include <stdio.h>
int last;
int scale(int value, int by) {
    last = by;
    return value * by;
}
int main(void) {
    int a = 2;
    int b = 3;
    int c = 4;
    int d = 5;
    int x = scale(a, b);
    int y = scale(c, d);
    printf("%d\n", x);
    printf("%d\n", last);
}
