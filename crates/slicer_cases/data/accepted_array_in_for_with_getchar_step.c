#include <stdio.h>
int main(void) {
    int x = 1;
    for (; x;
        x = getchar()) {
        int a[2];
    }
}
