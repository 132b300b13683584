#include <stdio.h>
int main(void) {
    int i = 3;
    int t = 0;
    int u = 0;
    do {
        int j = i;
        while (j > 0) {
            t = t + 1;
            j = j - 1;
        }
        u = u + i;
        i = i - 1;
    } while (i > 0);
    printf("%d\n", t);
    printf("%d\n", u);
}
