#include <stdio.h>
int main(void) {
    int a = 1;
    int b = 2;
    int c = 3;
    if (a < 2) {
        b = 5;
    } else {
        c = 6;
    }
    printf("%d\n", b);
    printf("%d\n", c);
}
