#include <stdio.h>
int main(void) {
    int c = getchar();
    int *p;
}
