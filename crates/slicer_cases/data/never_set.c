#include <stdio.h>
int main(void) {
    int u;
    int v = u + 1;
    int w = 2;
}
