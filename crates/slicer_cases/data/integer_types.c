#include <stdio.h>
int main(void) {
    unsigned u = 7u;
    char signed c = 'x';
    short int s = -1;
    unsigned short int t = 0xFFFF;
    long int l = 5L;
    long unsigned int m = 6UL;
    unsigned char b = 255;
    l = l + (signed long)u;
    m = (unsigned long)(signed char)c;
    b = (unsigned char)s;
    printf("%u %c %ld %lu\n", u, c, l, m);
    printf("%d %d %x %lx %ld%%\n", s, t, u, m, l);
    printf("%x\n", b);
}
