/* A linked list that stays in order, with numbers that come in and go out. */
#include <stdio.h>
#include <stdlib.h>

typedef struct node {
    int value;
    struct node *next;
} node;

static node *head = NULL;
static int length;

static node *make(int value, node *next)
{
    node *n = (node *)malloc(sizeof(node));

    if (n == NULL) {
        puts("no memory");
        return NULL;
    }
    n->value = value;
    n->next = next;
    length++;
    return n;
}

static void insert(int value)
{
    node *p, *prev = NULL;

    for (p = head; p != NULL && p->value < value; p = p->next)
        prev = p;
    if (prev)
        prev->next = make(value, p);
    else
        head = make(value, p);
}

static int take_out(int value)
{
    node **link = &head;

    while (*link) {
        node *n = *link;
        if (n->value == value) {
            *link = n->next;
            free(n);
            --length;
            return 1;
        }
        link = &n->next;
    }
    return 0;
}

static node *reversed(node *list)
{
    node *done = NULL;

    while (list) {
        node *rest = list->next;
        list->next = done, done = list, list = rest;
    }
    return done;
}

static void show(const node *n)
{
    if (!n) {
        putchar('\n');
        return;
    }
    printf("%d", n->value);
    if (n->next)
        putchar(' ');
    show(n->next);
}

int main(void)
{
    int c, n = 0, digits = 0, sign = '+', missed = 0;

    do {
        c = getchar();
        if (c >= '0' && c <= '9') {
            n = n * 10 + c - '0', digits++;
            continue;
        }
        if (digits) {
            if (sign == '-')
                missed += !take_out(n);
            else
                insert(n);
            n = digits = 0;
        }
        sign = c;
    } while (c != EOF);
    show(head);
    head = reversed(head);
    show(head);
    printf("length %d, missed %d\n", length, missed);
    while (head != NULL) {
        node *n = head;
        head = head->next;
        free(n);
    }
    return missed;
}
