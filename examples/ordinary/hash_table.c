/* Counts how often each word stands in the input, in a hash table with chains. */
#include <stdio.h>
#include <stdlib.h>
#include <string.h>
#include <ctype.h>

#define BUCKETS 16
#define WORD 24

struct entry {
    char key[WORD];
    int count;
    struct entry *next;
};

static struct entry *table[BUCKETS];

static unsigned hash(const char *s)
{
    unsigned h = 5381;

    while (*s)
        h = h * 33 + (unsigned char)*s++;
    return h % BUCKETS;
}

static struct entry *lookup(const char *key)
{
    struct entry *e;

    for (e = table[hash(key)]; e != NULL; e = e->next)
        if (strcmp(e->key, key) == 0)
            return e;
    return NULL;
}

static void add(const char *key)
{
    struct entry *e = lookup(key);
    unsigned h;

    if (e) {
        e->count++;
        return;
    }
    e = malloc(sizeof(*e));
    if (e == NULL)
        return;
    strcpy(e->key, key);
    e->count = 1;
    h = hash(key);
    e->next = table[h];
    table[h] = e;
}

static int next_word(char *word)
{
    int c, n = 0;

    do {
        c = getchar();
        if (c == EOF)
            return 0;
    } while (!isalpha(c));
    while (c != EOF && isalpha(c)) {
        if (n < WORD - 1)
            word[n++] = tolower(c);
        c = getchar();
    }
    word[n] = '\0';
    return n;
}

static void print_word(const char *s)
{
    for (; *s; s++)
        putchar(*s);
}

int main(void)
{
    char word[WORD];
    int i, total = 0, different = 0;

    while (next_word(word)) {
        add(word);
        total++;
    }
    for (i = 0; i < BUCKETS; i++) {
        struct entry *e = table[i];
        while (e) {
            struct entry *next = e->next;
            if (e->count > 1) {
                print_word(e->key);
                printf(": %d\n", e->count);
            }
            different++;
            free(e);
            e = next;
        }
        table[i] = NULL;
    }
    printf("%d words, %d different\n", total, different);
    return 0;
}
