#include <stdio.h>
#include <stdlib.h>
struct node {
    int val;
    struct node *next;
};
int main(void) {
    struct node *head = NULL;
    int n = 0;
    while (n < 3) {
        struct node *made = malloc(sizeof(struct node));
        made->val = n;
        made->next = head;
        head = made;
        n = n + 1;
    }
    int s = 0;
    while (head != NULL) {
        struct node *rest = head->next;
        s = s + head->val;
        free(head);
        head = rest;
    }
    printf("%d\n", s);
}
