#include <stdio.h>
int main(void) {
    int x = putchar(65);
}
