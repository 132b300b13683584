#include <stdio.h>
struct account {
    long balance;
    int moves;
};
void move(struct account *a, int by) {
    a->balance = a->balance + by;
    a->moves = a->moves + 1;
}
int main(void) {
    struct account mine;
    struct account *p = &mine;
    p->balance = 0;
    p->moves = 0;
    int c = getchar();
    while (c != EOF) {
        move(p, c);
        c = getchar();
    }
    printf("%ld\n", mine.balance);
    printf("%d\n", p->moves);
}
