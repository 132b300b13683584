#include <stdio.h>
static int seed = 7;
static int draws = 0;
static int draw(int most);
static int draw(int most) {
    seed = seed * 31 % 101;
    draws++;
    return seed % most;
}
int main(void) {
    int first = draw(6);
    int second = draw(10);
    printf("%d\n", first);
    printf("%d\n", second);
    printf("%d\n", draws);
}
