#include <stdio.h>
int main(void) {
    int x = 1;
    while (x) {
        x = getchar();
    }
    int a[2];
}
