#include <stdio.h>
int main(void) {
    int a;
    int b;
    a = 3;
    b = a + a;
    printf("%d\n", b);
    printf("%d\n", a);
}
