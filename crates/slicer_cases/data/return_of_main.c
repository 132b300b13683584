#include <stdio.h>
int main(void) {
    int x = 1;
    int y = 2;
    if (x) {
        y = 3;
    }
    printf("%d\n", x);
    return y + 1;
}
