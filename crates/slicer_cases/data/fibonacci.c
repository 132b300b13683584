#include <stdio.h>
int main(void) {
    unsigned long a = 0;
    unsigned long b = 1;
    unsigned long last = 0;
    int k = 0;
    int seen = 0;
    do {
        unsigned long t = a + b;
        last = a;
        a = b;
        b = t;
        seen = k;
        k++;
    } while (k < 10);
    printf("%lu\n", last);
    printf("%d\n", seen);
    printf("%lu\n", b);
}
