#include <stdio.h>
int main(void) {
    int a = 1;
    int b = a * 2;
    a = getchar();
}
