#include <stdio.h>
void divide(int a, int b, int *quotient, int *rest) {
    *quotient = a / b;
    *rest = a % b;
}
int main(void) {
    int q = 0;
    int r = 0;
    int n = getchar();
    int m = 7;
    divide(n, m, &q, &r);
    printf("%d\n", q);
    printf("%d\n", r);
}
