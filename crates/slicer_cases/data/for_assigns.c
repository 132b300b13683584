#include <stdio.h>
int main(void) {
    int i;
    int k = 4;
    for (
        i = k;
        i > 0; i--) {
        k = k - 1;
    }
    printf("%d\n", i);
}
