#include <stdio.h>
int main(void) {
    int rows = 0;
    int cells = 0;
    for (int i = 0; i < 3; i++) {
        rows = rows + 1;
        for (int j = i; j < 4; j++) {
            cells = cells + j;
        }
        putchar('\n');
    }
    printf("%d\n", rows);
    printf("%d\n", cells);
}
