#include <stdio.h>
int main(void) {
    int a = 1;
    int b = 2;
    int c = 3;
    int d = a && b;
    int e = b || c;
    int f = a ? b : c;
    int g = !b || (1 && ~c);
    int h = 0 && c;
    printf("%d %d\n", d, e);
}
