#include <stdio.h>
int main(void) {
    printf("%%%d %u%x %c\n", 1, 2u, 3, '4');
    printf("%ld %lu %lx%%\n", 5L, 6UL, 7l);
    putchar(EOF);
}
