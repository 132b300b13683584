#include <stdio.h>
int main(void) {
    int state = 0;
    int ups = 0;
    int downs = 0;
    int i = 0;
    while (i < 6) {
        switch (state) {
        case 0:
            ups++;
            state = 2;
            break;
        case 2:
            state = 1;
            break;
        default:
            downs++;
            state = 0;
        }
        i++;
    }
    printf("%d\n", ups);
    printf("%d\n", downs);
    printf("%d\n", i);
}
