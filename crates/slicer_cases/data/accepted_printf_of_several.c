#include <stdio.h>
int main(void) {
    int a = 1;
    printf("%d, %d\n", a, a + 1);
    printf("none\n");
}
