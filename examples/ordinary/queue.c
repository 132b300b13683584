/* A ring buffer as a queue, with jobs that are done in turns. */
#include <stdio.h>
#include <stdbool.h>

#define CAPACITY 8
#define SLICE 3

struct job {
    int id;
    int left;
};

struct queue {
    struct job items[CAPACITY];
    unsigned head, size;
};

static bool is_empty(const struct queue *q) { return q->size == 0; }
static bool is_full(const struct queue *q) { return q->size == CAPACITY; }

static bool put(struct queue *q, struct job j)
{
    if (is_full(q))
        return false;
    q->items[(q->head + q->size++) % CAPACITY] = j;
    return true;
}

static struct job take(struct queue *q)
{
    struct job j = q->items[q->head];

    q->head = (q->head + 1) % CAPACITY;
    --q->size;
    return j;
}

int main(void)
{
    struct queue q = { .head = 5 };
    int c, id = 0, time = 0, refused = 0;

    while ((c = getchar()) != EOF) {
        if (c < '1' || c > '9')
            continue;
        struct job j = { ++id, c - '0' };
        if (!put(&q, j))
            refused++;
    }
    while (!is_empty(&q)) {
        struct job j = take(&q);
        int turn = j.left < SLICE ? j.left : SLICE;

        time += turn;
        if ((j.left -= turn) > 0) {
            put(&q, j);
            continue;
        }
        printf("job %d is done at %d\n", j.id, time);
    }
    printf("%d refused\n", refused);
    return refused;
}
