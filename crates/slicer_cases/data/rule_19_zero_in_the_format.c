#include <stdio.h>
int main(void) {
    printf("a\0");
}
