/* A bank with accounts: the input has a command a line, as "o 3 500" (open), "d 3 20" (deposit), "w 3 5" (withdraw), "t 3 4 10". */
#include <stdio.h>
#include <stdlib.h>
#include <stdbool.h>

#define ACCOUNTS 10

typedef enum { OK, NO_ACCOUNT, NO_MONEY, BAD_COMMAND } result;

typedef struct account {
    bool is_open;
    long balance;
    struct { int deposits, withdrawals; } count;
} account;

static account accounts[ACCOUNTS];

static account *find(int number)
{
    if (number < 0 || number >= ACCOUNTS || !accounts[number].is_open)
        return NULL;
    return &accounts[number];
}

static result deposit(int number, long amount)
{
    account *a = find(number);

    if (!a)
        return NO_ACCOUNT;
    a->balance += amount;
    a->count.deposits++;
    return OK;
}

static result withdraw(int number, long amount)
{
    account *a = find(number);

    if (!a)
        return NO_ACCOUNT;
    if (a->balance < amount)
        return NO_MONEY;
    a->balance -= amount;
    a->count.withdrawals++;
    return OK;
}

static result transfer(int from, int to, long amount)
{
    result r;

    if (find(to) == NULL)
        return NO_ACCOUNT;
    if ((r = withdraw(from, amount)) != OK)
        return r;
    return deposit(to, amount);
}

static int last;

static long number(void)
{
    long n = 0;

    while (last == ' ')
        last = getchar();
    while (last >= '0' && last <= '9') {
        n = 10 * n + (last - '0');
        last = getchar();
    }
    return n;
}

static result command(int c)
{
    int a, b;
    long amount;

    last = getchar();
    a = number();
    switch (c) {
    case 'o':
        if (a >= ACCOUNTS || accounts[a].is_open)
            return NO_ACCOUNT;
        accounts[a] = (account){ true, number(), { 0, 0 } };
        return OK;
    case 'd':
        return deposit(a, number());
    case 'w':
        return withdraw(a, number());
    case 't':
        b = number();
        amount = number();
        return transfer(a, b, amount);
    default:
        return BAD_COMMAND;
    }
}

int main(void)
{
    int c, line = 0, failures[4] = { 0 };
    long total = 0;

    while ((c = getchar()) != EOF) {
        result r;

        line++;
        if (c == '\n')
            continue;
        r = command(c);
        if (r != OK)
            printf("line %d: error %d\n", line, (int)r);
        failures[r]++;
        while (last != EOF && last != '\n')
            last = getchar();
    }
    for (int i = 0; i < ACCOUNTS; i++) {
        account a = accounts[i];
        if (!a.is_open)
            continue;
        printf("%d: %ld (%d in, %d out)\n", i, a.balance, a.count.deposits, a.count.withdrawals);
        total += a.balance;
    }
    printf("%ld in all, %d done\n", total, failures[OK]);
    return failures[OK] != line;
}
