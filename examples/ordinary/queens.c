/* How many ways there are to put n queens on a board, and the first of them. */
#include <stdio.h>
#include <stdlib.h>

#define MAX_N 8

static int column[MAX_N], nodes;

static int attacks(int row, int col)
{
    for (int r = 0; r < row; r++)
        if (column[r] == col || abs(column[r] - col) == row - r)
            return 1;
    return 0;
}

static void show(int n)
{
    int r, c;

    for (r = 0; r < n; r++) {
        for (c = 0; c < n; c++)
            putchar(c == column[r] ? 'Q' : '-');
        putchar('\n');
    }
}

static int place(int row, int n)
{
    static int shown;
    int c, ways = 0;

    nodes++;
    if (row == n) {
        if (shown++ == 0)
            show(n);
        return 1;
    }
    for (c = 0; c < n; c++) {
        if (attacks(row, c))
            continue;
        column[row] = c;
        ways += place(row + 1, n);
    }
    return ways;
}

int main(void)
{
    int n, c = getchar();

    if (c == EOF || c < '1' || (n = c - '0') > MAX_N) {
        puts("1 to 8");
        exit(EXIT_FAILURE);
    }
    printf("%d ways\n", place(0, n));
    printf("%d nodes\n", nodes);
    exit(EXIT_SUCCESS);
}
