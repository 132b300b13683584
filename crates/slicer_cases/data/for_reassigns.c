#include <stdio.h>
int main(void) {
    int n = 0;
    for (int i = 7; n < 3; n++) {
        i = n;
        printf("%d\n", i);
    }
    printf("%d\n", n);
}
