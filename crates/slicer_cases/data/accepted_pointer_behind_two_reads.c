#include <stdio.h>
int main(void) {
    int c;
    c = EOF;
    c = getchar();
    getchar();
    int *p = &c;
}
