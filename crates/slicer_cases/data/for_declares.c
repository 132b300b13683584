#include <stdio.h>
int main(void) {
    int n = 3;
    for (
        int i = n;
        i < 9;
        i++
    ) {
        n = n + i;
    }
    printf("%d\n", n);
}
