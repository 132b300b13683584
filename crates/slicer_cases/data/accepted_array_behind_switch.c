#include <stdio.h>
int main(void) {
    int x = 1;
    switch (x) {
    case 1:
        x = 2;
        break;
    case 2:
        x = getchar();
    }
    int a[2];
}
