#include <stdio.h>
int main(void) {
    int sum = 0;
    int most = -1;
    for (int i = 0; i < 4; i++) {
        int sq = i * i;
        int rest;
        {
            int half = sq / 2;
            rest = sq - half;
        }
        sum += rest;
        if (sq > most)
            most = sq;
    }
    for (int i = 9; i > sum; i--) {
        int sq = i;
        most += sq;
    }
    printf("%d\n", sum);
    printf("%d\n", most);
}
