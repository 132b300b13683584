#include <stdio.h>
void aim(int **at, int *to) {
    *at = to;
}
int main(void) {
    int x = 1;
    int y = 2;
    int *p = &x;
    int *q = &y;
    int **pp = &p;
    **pp = 3;
    aim(pp, q);
    *p = 4;
    *q = **pp + 1;
    printf("%d\n", x);
    printf("%d\n", y);
    printf("%d\n", *q);
}
