#include <stdio.h>
int g;
void set(int a) {
    g = a;
}
int next(void) {
    g = g + 1;
    return g;
}
int main(void) {
    int x = 1;
    set(x);
    int y = next();
    x = x + 2;
    printf("%d\n", y);
    printf("%d\n", x);
}
