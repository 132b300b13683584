#include <stdio.h>
int main(void) {
    int a = 1;
    int a = 2;
}
