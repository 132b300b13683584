#include <stdio.h>
int total;
int add(int by) {
    total = total + by;
    return total;
}
int main(void) {
    int i = 0;
    int n = 0;
    for (i = 1; i < 4; i++) {
        add(i);
        n = n + 2;
    }
    printf("%d\n", total);
    printf("%d\n", n);
}
