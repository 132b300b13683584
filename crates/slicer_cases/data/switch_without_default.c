#include <stdio.h>
int main(void) {
    int k = 2;
    int r = 0;
    switch (k) {
    case 1:
        r = 1;
        break;
    case 2:
        r = 2;
    }
    printf("%d\n", r);
}
