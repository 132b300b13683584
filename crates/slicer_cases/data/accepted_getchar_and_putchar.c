#include <stdio.h>
int main(void) {
    int c = getchar();
    getchar();
    putchar(c);
}
