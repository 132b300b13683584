/* The sieve of Eratosthenes, twins, and factors. */
#include <stdio.h>
#include <stdbool.h>
#include <string.h>

#define LIMIT 200

static bool composite[LIMIT + 1];

static int sieve(void)
{
    int count = 0;

    memset(composite, 0, sizeof(composite));
    composite[0] = composite[1] = true;
    for (int i = 2; i <= LIMIT; i++) {
        if (composite[i])
            continue;
        count++;
        for (int j = i * i; j <= LIMIT; j += i)
            composite[j] = true;
    }
    return count;
}

static int next_prime(int n)
{
    do
        if (++n > LIMIT)
            return 0;
    while (composite[n]);
    return n;
}

static void factor(unsigned n)
{
    printf("%u =", n);
    for (unsigned p = 2; ; p = next_prime(p)) {
        if (p == 0 || p * p > n)
            break;
        while (n % p == 0) {
            printf(" %u", p);
            n /= p;
        }
    }
    if (n > 1)
        printf(" %u", n);
    printf("\n");
}

int main(void)
{
    int twins = 0, p, before = 0;
    const unsigned numbers[] = { 360, 97, 1001, 39203, 1 };

    printf("%d primes\n", sieve());
    for (p = next_prime(1); p; before = p, p = next_prime(p))
        if (p - before == 2 && before)
            twins++;
    printf("%d twins, last %d\n", twins, before);
    for (size_t i = 0; i < sizeof numbers / sizeof numbers[0]; i++)
        factor(numbers[i]);
    return 0;
}
