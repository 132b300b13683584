#include <stdio.h>
int main(void) {
    int a = 1;
    int b = a + 1;
    int i;
    a = 7;
    b = 9;
    i = b;
    a = 0;
    i = 0;
    while (i < 5) {
        a = a + i;
        b = i;
        i = i + 1;
    }
    printf("%d\n", a);
    printf("%d\n", b);
}
