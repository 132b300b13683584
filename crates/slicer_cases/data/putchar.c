#include <stdio.h>
int main(void) {
    int c = EOF;
    int d = 'd';
    if (c == EOF) {
        d = c;
        putchar(d);
    }
    putchar('\n');
    putchar(d + 1);
    printf("%%%%\n");
}
