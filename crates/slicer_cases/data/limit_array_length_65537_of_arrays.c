#include <stdio.h>
int main(void) {
    int a[65537][65537];
}
