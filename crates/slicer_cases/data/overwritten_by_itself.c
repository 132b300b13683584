#include <stdio.h>
int main(void) {
    int a = 1;
    a = a - a;
    a = a + 1;
    printf("%d\n", a);
}
