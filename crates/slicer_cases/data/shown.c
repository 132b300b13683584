#include <stdio.h>
int twice(int n) {
    return n + n;
}
void none(void) {
}
int main(void) {
    int a[4];
    int *p = a;
    p = p + 3;
    p = &p[1];
    p = NULL;
    unsigned int u = 0u - 1u;
    signed char s = (signed char)(0 - 3);
    none();
    int n = twice(21);
    a[n - 40] = n;
    printf("%d %u\n", n, u);
    printf("end\n");
}
