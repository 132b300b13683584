#include <stdio.h>
#define LAST 10
int main(void) {
    int sum = 0;
    for (int i = 1; i <= LAST; i++) {
        sum = sum + i;
    }
    printf("%d\n", sum);
}
