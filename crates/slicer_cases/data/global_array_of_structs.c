#include <stdio.h>
struct item {
    int price;
    int count;
};
struct item stock[4];
int total;
void enter(int at, int price, int count) {
    stock[at].price = price;
    stock[at].count = count;
}
void add(struct item *i) {
    total = total + i->price * i->count;
}
int main(void) {
    for (int k = 0; k < 4; k++) {
        enter(k, k + 1, 2);
    }
    struct item *end = stock + 4;
    for (struct item *i = stock; i < end; i++) {
        add(i);
    }
    printf("%d\n", total);
    printf("%d\n", stock[3].price);
    printf("%d\n", stock[0].count);
}
