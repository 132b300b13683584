#include <stdio.h>
int main(void) {
    int a = getchar();
    int b = getchar();
    int c = getchar();
    putchar(a);
    putchar(c);
}
