#include <stdio.h>
int main(void) {
    short turns = 0;
    int flip = 0;
    int low = 9;
    while (turns < 4) {
        int step = turns;
        do {
            step++;
            do
                low--;
            while (low > step);
        } while (step < 3);
        flip = flip ? 0 : step;
        turns++;
    }
    printf("%d\n", flip);
    printf("%d\n", low);
    printf("%d\n", turns);
}
