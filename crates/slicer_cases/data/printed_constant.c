#include <stdio.h>
int main(void) {
    int a = 1;
    printf("%d\n", 5);
    printf("%d\n", a);
}
