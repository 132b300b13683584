#include <stdio.h>
int add(int a, int b) {
    return a + b;
}
int increment(int z) {
    z = add(z, 1);
    return z;
}
int main(void) {
    int sum = 0;
    int i = 1;
    while (i < 11) {
        sum = add(sum, i);
        i = increment(i);
    }
    printf("%d\n", sum);
    printf("%d\n", i);
}
