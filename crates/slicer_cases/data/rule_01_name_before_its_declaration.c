#include <stdio.h>
int main(void) {
    a = 1;
    int a;
}
