#include <stdio.h>
int x;
int y;
int *p = NULL;
void store(void) {
    p = &y;
}
int main(void) {
    p = &x;
    x = 1;
    y = 2;
    *p = 3;
    printf("%d\n", y);
    printf("%d\n", x);
}
