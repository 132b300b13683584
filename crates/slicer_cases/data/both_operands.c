#include <stdio.h>
int main(void) {
    int a = 1;
    int b = 2;
    int c = 3;
    a = b - c;
    b = a + 1;
    printf("%d\n", b);
}
