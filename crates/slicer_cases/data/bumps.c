#include <stdio.h>
int main(void) {
    int x = 1;
    int y = 2;
    int z = 3;
    x += y;
    y++;
    --z;
    x <<= 1;
    printf("%d\n", x);
    printf("%d\n", y);
    printf("%d\n", z);
}
