#include <stdio.h>
int balance;
int visits;
void pay(int amount) {
    balance = balance + amount;
    visits = visits + 1;
}
int show(void) {
    int seen = balance;
    visits = visits + 1;
    return seen;
}
int main(void) {
    pay(5);
    pay(7);
    int s = show();
    printf("%d\n", s);
    printf("%d\n", visits);
}
