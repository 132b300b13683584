#include <stdio.h>
int main(void) {
    int first = 1;
    int second = 2;
    int third = 3;
    int i = 8;
    int idle = 0;
    while (i) {
        first = second;
        second = third;
        third = i;
        --i;
        idle = first + second;
    }
    if (first == second && third != i) {
        idle = third;
    }
    printf("%d\n", first);
    printf("%d\n", third);
    printf("%d\n", idle);
}
