#include <stdio.h>
#include <stdlib.h>
struct node {
    int val;
    struct node *next;
};
int main(void) {
    struct node *odd = NULL;
    struct node *even = NULL;
    int c = getchar();
    while (c != EOF) {
        if (c % 2) {
            struct node *o = malloc(sizeof(struct node));
            o->val = c;
            o->next = odd;
            odd = o;
        } else {
            struct node *e = malloc(sizeof(struct node));
            e->val = c * 2;
            e->next = even;
            even = e;
        }
        c = getchar();
    }
    int s = 0;
    while (odd != NULL) {
        s = s + odd->val;
        odd = odd->next;
    }
    int t = 0;
    while (even != NULL) {
        t = t + even->val;
        even = even->next;
    }
    printf("%d\n", s);
    printf("%d\n", t);
}
