#include <stdio.h>
void f(int a) {
}
int main(void) {
    f(1);
    putchar(2);
    printf("%d", 3);
}
