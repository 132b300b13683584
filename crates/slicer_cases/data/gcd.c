#include <stdio.h>
int steps;
int gcd(int a, int b) {
    int r = a;
    steps = steps + 1;
    if (b != 0) {
        r = gcd(b, a % b);
    }
    return r;
}
int main(void) {
    int x = getchar();
    int y = getchar();
    int z = getchar();
    int g = gcd(x, y);
    printf("%d\n", g);
    printf("%d\n", steps + z);
}
