#include <stdio.h>
int main(void) {
    unsigned char kind = 2;
    unsigned int bits = 0xF0u;
    int count = 0;
    switch (kind & 3) {
    case 0:
        count = -1;
        break;
    case 1 + 1: {
        unsigned int left = bits;
        while (left) {
            count += left & 1;
            left >>= 1;
        }
    }
        break;
    case 3:
        bits = ~bits;
    }
    printf("%d\n", count);
    printf("%x\n", bits);
}
