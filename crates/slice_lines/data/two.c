#include <stdio.h>
int main(void) {
    int a = 1;
    int b = 2;
    a = a + 3;
    b = b + 4;
    printf("%d\n", a);
    printf("%d\n", b);
}
