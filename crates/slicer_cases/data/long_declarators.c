#include <stdio.h>
int main(void) {
    long a = 1, b = a + 1,
        c, d = b;
    while (a < 9)
        a += b;
    c = d;
    printf("%ld\n", c); printf("%ld\n", a);
}
