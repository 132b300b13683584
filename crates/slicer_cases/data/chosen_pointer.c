#include <stdio.h>
int main(void) {
    int a = 1;
    int b = 2;
    int c = getchar();
    int *p = c > 0 ? &a : &b;
    *p += c;
    int *q = &b;
    q = p;
    int same = p == q;
    printf("%d\n", a);
    printf("%d\n", same);
    printf("%d\n", *q);
}
