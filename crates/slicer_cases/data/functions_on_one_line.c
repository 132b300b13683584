#include <stdio.h>
int g;
void set(int a) { g = a; } int twice(int b) { b = b + b; return b; }
int main(void) {
    int x = twice(4);
    set(x);
    printf("%d\n", g);
}
