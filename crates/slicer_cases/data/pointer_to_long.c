#include <stdio.h>
int main(void) {
    long a = 1;
    long *b = &a;
    *b = 2;
}
