#include <stdio.h>
int main(void) {
    int a = 'a' + 0x1F - 017;
    int b = '\n';
    printf("%d %d\n", a, b);
}
