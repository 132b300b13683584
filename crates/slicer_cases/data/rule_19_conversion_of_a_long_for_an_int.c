#include <stdio.h>
int main(void) {
    printf("%ld", 1);
}
