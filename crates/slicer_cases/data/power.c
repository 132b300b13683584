#include <stdio.h>
int power(int base, int exponent, int unused) {
    int result = 1;
    if (exponent > 0) {
        result = power(base, exponent - 1, unused);
        result = result * base;
    }
    return result;
}
int main(void) {
    int b = 3;
    int e = 4;
    int w = 5;
    int p = power(b, e, w);
    printf("%d\n", p);
    printf("%d\n", e);
}
