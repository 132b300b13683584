int main(void) {
    putchar(65);
}
#include <stdio.h>
