#include <stdio.h>
int main(void) {
    int n = 0;
    int k = 0;
    for (k = 1; n < 5;
        k++) {
        n = n + 2;
    }
    printf("%d\n", n);
    printf("%d\n", k);
}
