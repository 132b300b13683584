#include <stdio.h>
int main(void) {
    int k = 2;
    int r = 0;
    switch (k + 1) {
    case 1:
        r = 1;
        break;
    default:
        r = 4;
        break;
    case 2:
    case 3:
        k = 5;
        break;
    }
    printf("%d\n", r);
    printf("%d\n", k);
}
