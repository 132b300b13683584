#include <stdio.h>
int main(void) {
    printf("%d%%\n", 1);
    printf("%lu", 1L);
}
