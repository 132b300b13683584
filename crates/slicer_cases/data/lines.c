#include <stdio.h>
int main(void) {
    int i = 0, s = 0, t = 0;
    while (i < 4) { i++; s += i; }
    if (s > 3) t = s; else t = 1; printf("%d\n", s);
    printf("%d\n", t); do i--; while (i);
}
