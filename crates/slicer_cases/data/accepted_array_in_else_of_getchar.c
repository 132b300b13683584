#include <stdio.h>
int main(void) {
    int x = 1;
    if (x)
        getchar();
    else {
        int a[2];
    }
}
