#include <stdio.h>
int main(void) {
    int squares[10];
    int cubes[10];
    for (int i = 0; i < 10; i++) {
        squares[i] = i * i;
        cubes[i] = squares[i] * i;
    }
    int s = 0;
    for (int j = 0; j < 10; j++) {
        s = s + squares[j];
    }
    int t = 0;
    int k = 9;
    do {
        t += cubes[k];
        k--;
    } while (k > 0);
    printf("%d\n", s);
    printf("%d\n", t);
}
