#include <stdio.h>
int main(void) {
    int m = -2147483647 - 1;
    int d = getchar();
    int k = 1;
    k = m / d;
    printf("%d\n", k);
}
