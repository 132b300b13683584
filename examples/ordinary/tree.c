/* A binary tree of characters: inserted, walked in order, measured. */
#include <stdio.h>
#include <stdlib.h>

struct tree {
    char key;
    unsigned count;
    struct tree *left, *right;
};

static struct tree *insert(struct tree *t, char key)
{
    if (t == NULL) {
        t = malloc(sizeof *t);
        t->key = key;
        t->count = 1;
        t->left = t->right = NULL;
    } else if (key < t->key) {
        t->left = insert(t->left, key);
    } else if (key > t->key) {
        t->right = insert(t->right, key);
    } else {
        t->count++;
    }
    return t;
}

static int max(int a, int b) { return a > b ? a : b; }

static int height(const struct tree *t)
{
    return t ? 1 + max(height(t->left), height(t->right)) : 0;
}

static int walk(const struct tree *t, int depth)
{
    int sum = 0;

    if (!t)
        return 0;
    sum += walk(t->left, depth + 1);
    printf("%c %u at %d\n", t->key, t->count, depth);
    sum += depth * t->count;
    return sum + walk(t->right, depth + 1);
}

static struct tree *least(struct tree *t)
{
    while (t && t->left)
        t = t->left;
    return t;
}

static void drop(struct tree *t)
{
    if (!t) return;
    drop(t->left);
    drop(t->right);
    free(t);
}

int main(void)
{
    struct tree *root = NULL, *first;
    int c;

    while ((c = getchar()) != EOF)
        if (c > ' ')
            root = insert(root, c);
    if (!(first = least(root))) {
        puts("nothing");
        return 2;
    }
    printf("height %d, first %c\n", height(root), first->key);
    printf("path length %d\n", walk(root, 1));
    drop(root);
    return 0;
}
