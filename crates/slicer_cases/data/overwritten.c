#include <stdio.h>
int main(void) {
    int a = 1;
    a = 2;
    printf("%d\n", a);
}
