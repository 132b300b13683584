#include <stdio.h>
int main(void) {
    int c = getchar();
    int r = 0;
    int q = 0;
    switch (c) {
    case 'a':
        q = 1;
        break;
    case 'b':
        r = 2;
        break;
    default:
        r = 3;
    }
    printf("%d\n", r);
    printf("%d\n", q);
}
