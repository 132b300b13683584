#include <stdio.h>
int main(void) {
    int a[65536];
}
