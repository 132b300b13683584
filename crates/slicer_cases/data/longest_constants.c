#include <stdio.h>
int main(void) {
    int _x9 = 2147483647;
    int Y_ = 0;
    Y_ = Y_ - _x9;
    printf("%d\n", Y_);
}
