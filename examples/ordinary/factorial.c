/* Factorials with as many digits as they need, in a struct that is passed and returned. */
#include <stdio.h>

#define DIGITS 40

typedef struct big {
    unsigned char digit[DIGITS];
    int used;
} big;

static big from_int(unsigned n)
{
    big b = { { 0 }, 0 };

    do {
        b.digit[b.used++] = n % 10;
        n /= 10;
    } while (n);
    return b;
}

static big times(big b, unsigned n)
{
    unsigned carry = 0;
    int i;

    for (i = 0; i < b.used || carry; i++) {
        if (i == DIGITS)
            return from_int(0);
        carry += (i < b.used ? b.digit[i] : 0) * n;
        b.digit[i] = carry % 10;
        carry /= 10;
    }
    b.used = i;
    return b;
}

static big sum(big a, big b)
{
    big r = a;
    int i, carry = 0;

    for (i = 0; i < DIGITS; i++) {
        int d = a.digit[i] + b.digit[i] + carry;
        r.digit[i] = d % 10;
        carry = d > 9;
        if (d)
            r.used = i + 1 > r.used ? i + 1 : r.used;
    }
    return r;
}

static void print(const big *b)
{
    int i = b->used;

    while (i-- > 0)
        putchar('0' + b->digit[i]);
    putchar('\n');
}

int main(void)
{
    big f = from_int(1), total = from_int(0);
    unsigned n;

    for (n = 1; n <= 30; n++) {
        f = times(f, n);
        total = sum(total, f);
        if (n % 10 == 0) {
            printf("%u! = ", n);
            print(&f);
        }
    }
    print(&total);
    return total.digit[0];
}
