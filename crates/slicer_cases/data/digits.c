#include <stdio.h>
int lines;
int digit(void) {
    int c = getchar();
    lines = lines + 1;
    return c - '0';
}
int main(void) {
    int high = digit();
    int low = digit();
    int third = getchar();
    putchar(third);
    printf("%d\n", low);
    printf("%d\n", lines);
}
