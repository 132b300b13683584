/* Conway's game of life on a torus; the input is a picture of the first generation. */
#include <stdio.h>
#include <string.h>

#define ROWS 8
#define COLS 12

static unsigned char cells[ROWS][COLS], next[ROWS][COLS];

static int neighbours(int r, int c)
{
    int n = 0;

    for (int dr = -1; dr <= 1; dr++)
        for (int dc = -1; dc <= 1; dc++) {
            if (dr == 0 && dc == 0)
                continue;
            n += cells[(r + dr + ROWS) % ROWS][(c + dc + COLS) % COLS];
        }
    return n;
}

static int step(void)
{
    int r, c, changed = 0;

    for (r = 0; r < ROWS; r++)
        for (c = 0; c < COLS; c++) {
            switch (neighbours(r, c)) {
            case 2:
                next[r][c] = cells[r][c];
                break;
            case 3:
                next[r][c] = 1;
                break;
            default:
                next[r][c] = 0;
            }
            changed += next[r][c] != cells[r][c];
        }
    memcpy(cells, next, sizeof cells);
    return changed;
}

static void show(void)
{
    for (int r = 0; r < ROWS; r++) {
        for (int c = 0; c < COLS; c++)
            putchar(cells[r][c] ? '#' : '.');
        putchar('\n');
    }
}

static void read_picture(void)
{
    int ch, r = 0, c = 0;

    while ((ch = getchar()) != EOF && r < ROWS) {
        if (ch == '\n') {
            r++, c = 0;
            continue;
        }
        if (c < COLS)
            cells[r][c++] = ch == '#';
    }
}

int main(void)
{
    int generation;

    read_picture();
    for (generation = 0; generation < 6; generation++)
        if (!step())
            break;
    show();
    printf("generation %d\n", generation);
    return 0;
}
