#include <stdio.h>
int main(void) {
    int x = 1;
    if (x) {
        x = 2;
    } else {
        int c = getchar();
    }
    int a[2];
}
