#include <stdio.h>
int g;
void f(int a) {
    a = 5;
    g = a;
}
int main(void) {
    int x = 7;
    f(x + 1);
    printf("%d\n", g);
}
