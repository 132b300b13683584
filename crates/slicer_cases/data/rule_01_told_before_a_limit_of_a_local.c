#include <stdio.h>
int main(void) {
    int a[65537];
    y = 1;
}
