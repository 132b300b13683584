/* The shortest way through a maze, by a search in breadth; the maze is the input. */
#include <stdio.h>

#define MOST 16

typedef struct { int row, col; } place;

static char maze[MOST][MOST + 1];
static int distance[MOST][MOST];
static int rows, cols;

static int read_maze(place *from, place *to)
{
    int c, found = 0, col = 0;

    while ((c = getchar()) != EOF) {
        if (c == '\n') {
            if (col > cols) cols = col;
            col = 0;
            if (++rows == MOST) break;
            continue;
        }
        if (col == MOST) continue;
        switch (c) {
        case 'A':
            from->row = rows, from->col = col;
            found++;
            break;
        case 'B': {
            place p = { rows, col };
            *to = p;
            found++;
            break;
        }
        }
        maze[rows][col++] = c;
    }
    return found == 2;
}

static int is_open(place p)
{
    if (p.row < 0 || p.col < 0 || p.row >= rows || p.col >= cols)
        return 0;
    return maze[p.row][p.col] && maze[p.row][p.col] != '#';
}

static int search(place from, place to)
{
    static const place steps[4] = { { 0, 1 }, { 1, 0 }, { 0, -1 }, { -1, 0 } };
    place queue[MOST * MOST];
    int head = 0, tail = 0, i;

    queue[tail++] = from;
    distance[from.row][from.col] = 1;
    while (head < tail) {
        place p = queue[head++];

        if (p.row == to.row && p.col == to.col)
            return distance[p.row][p.col] - 1;
        for (i = 0; i < 4; i++) {
            place q = p;
            q.row += steps[i].row, q.col += steps[i].col;
            if (!is_open(q) || distance[q.row][q.col])
                continue;
            distance[q.row][q.col] = distance[p.row][p.col] + 1;
            queue[tail++] = q;
        }
    }
    return -1;
}

int main(void)
{
    place from, to;
    int way;

    if (!read_maze(&from, &to)) {
        printf("no way in or out\n");
        return 1;
    }
    way = search(from, to);
    if (way < 0) {
        printf("no way\n");
        return 2;
    }
    printf("%d steps\n", way);
    return 0;
}
