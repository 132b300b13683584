/* A vending machine: coins and choices come in, goods and change go out. */
#include <stdio.h>
#include <stdint.h>
#include <stdbool.h>

#define PRODUCTS 3

enum state { IDLE, PAYING, SOLD_OUT };

struct product {
    uint16_t price;
    uint8_t stock;
};

static struct product products[PRODUCTS] = { { 120, 2 }, { .price = 80, .stock = 1 }, { 55, 3 } };
static const uint8_t coins[] = { 100, 50, 20, 10, 5 };
static uint32_t paid, sold;

static bool any_left(void)
{
    for (int i = 0; i < PRODUCTS; i++)
        if (products[i].stock)
            return true;
    return false;
}

static unsigned give_change(unsigned amount)
{
    unsigned given = 0;

    for (unsigned i = 0; i < sizeof(coins); i++)
        while (amount >= coins[i]) {
            printf(" %d", coins[i]);
            amount -= coins[i];
            given++;
        }
    if (given == 0)
        printf(" none");
    printf("\n");
    return amount;
}

static enum state choose(int number)
{
    struct product *p;

    if (number < 0 || number >= PRODUCTS) {
        printf("no product %d\n", number);
        return paid ? PAYING : IDLE;
    }
    p = &products[number];
    if (!p->stock || paid < p->price) {
        if (p->stock)
            printf("too little: %u\n", paid);
        else
            printf("sold out: %u\n", paid);
        return PAYING;
    }
    p->stock--;
    sold += p->price;
    paid -= p->price;
    printf("product %d, change:", number);
    paid = give_change(paid);
    return any_left() ? IDLE : SOLD_OUT;
}

static int run(void)
{
    enum state s = IDLE;
    int c;

    while (s != SOLD_OUT && (c = getchar()) != EOF) {
        switch (c) {
        case 'f': paid += 5; s = PAYING; break;
        case 't': paid += 10; s = PAYING; break;
        case 'd': paid += 100; s = PAYING; break;
        case 'c':
            if (s == IDLE)
                break;
            printf("back:");
            give_change(paid);
            paid = 0;
            s = IDLE;
            break;
        case '0': case '1': case '2': case '3':
            s = choose(c - '0');
        }
    }
    return s;
}

int main(void)
{
    int s = run();

    printf("state %d, sold for %u\n", s, sold);
    return s == SOLD_OUT ? 0 : 1;
}
