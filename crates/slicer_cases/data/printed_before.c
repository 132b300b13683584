#include <stdio.h>
int main(void) {
    int a = 1;
    printf("%d\n", a);
    printf("%d\n", a);
    a = 2;
}
