#include <stdio.h>
int main(void) {
    for (
        int c = getchar();
        c > 0; c--) {
        int a[2];
    }
}
