#include <stdio.h>
int main(void) {
    int a = 1, b = 0; char c = 'c';
    for (; a < 100; a *= 3) ;
    if (a > 80) if (b) c = 'x'; else c = 'y';
    while (b < 2) { b++; if (b == 1) c++; }
    switch (c) { case 'y': a = 0; break; case 'z': default: b = -b; }
    printf("%d\n", a);
    printf("%d\n", b);
    putchar(c);
}
