#include <stdio.h>
int main(void) {
    int a = 1;
    char b[3];
}
