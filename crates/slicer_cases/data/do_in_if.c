#include <stdio.h>
int main(void) {
    int x = 5;
    int y = 0;
    int z = 1;
    if (x > 3)
        do
            x -= z;
        while (x > 1);
    else
        for (; y < 2; y++)
            z = z + x;
    printf("%d\n", x);
    printf("%d\n", z);
    printf("%d\n", y);
}
