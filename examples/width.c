#include <stdio.h>
int main(void) {
    int a = 7;
    printf("%5d\n", a);
}
