#include <stdio.h>
int main(void) {
    int a[1024][1025];
}
