#include <stdio.h>
int main(void) {
    int s = 0;
    int j = 0;
    do {
        s = s + 1;
    } while (0);
    for (s = 0; j < 2; j++) {
        putchar('a' + j);
        s = s + j;
    }
    printf("%d\n", s);
}
