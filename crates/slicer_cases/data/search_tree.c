#include <stdio.h>
#include <stdlib.h>
struct tree {
    int key;
    int count;
    struct tree *left;
    struct tree *right;
};
void insert(struct tree **at, int key) {
    struct tree *t = *at;
    if (t == NULL) {
        t = malloc(sizeof *t);
        t->key = key;
        t->count = 1;
        t->left = NULL;
        t->right = NULL;
        *at = t;
    } else {
        if (key == t->key) {
            t->count = t->count + 1;
        } else {
            if (key < t->key) {
                insert(&t->left, key);
            } else {
                insert(&t->right, key);
            }
        }
    }
}
int sum(struct tree *t) {
    int s = 0;
    if (t != NULL) {
        int l = sum(t->left);
        int r = sum(t->right);
        s = l + r + t->count;
    }
    return s;
}
int depth(struct tree *t) {
    int d = 0;
    if (t != NULL) {
        int l = depth(t->left);
        int r = depth(t->right);
        d = (l > r ? l : r) + 1;
    }
    return d;
}
int main(void) {
    struct tree *root = NULL;
    int c = getchar();
    while (c != EOF) {
        insert(&root, c);
        c = getchar();
    }
    int n = sum(root);
    int d = depth(root);
    printf("%d\n", n);
    printf("%d\n", d);
}
