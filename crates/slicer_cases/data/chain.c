#include <stdio.h>
int main(void) {
    int x = 1;
    int y = x + 2;
    int z = y - 3;
    printf("%d\n", z);
}
