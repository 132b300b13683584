/* The longest common subsequence of two lines, by a table. */
#include <stdio.h>
#include <string.h>

#define MAX 40
#define LONGER(a, b) ((a) >= (b) ? (a) : (b))

static int table[MAX + 1][MAX + 1];

static size_t get_line(char *s, size_t room)
{
    size_t n = 0;
    int c;

    while ((c = getchar()) != EOF && c != '\n')
        if (n + 1 < room)
            s[n++] = c;
    s[n] = '\0';
    return n;
}

static int fill(const char *a, const char *b)
{
    size_t i, j, m = strlen(a), n = strlen(b);

    for (i = 1; i <= m; i++)
        for (j = 1; j <= n; j++)
            if (a[i - 1] == b[j - 1])
                table[i][j] = table[i - 1][j - 1] + 1;
            else
                table[i][j] = LONGER(table[i - 1][j], table[i][j - 1]);
    return table[m][n];
}

static void trace(const char *a, const char *b, char *to)
{
    int i = strlen(a), j = strlen(b), k = table[i][j];

    to[k] = '\0';
    while (i > 0 && j > 0) {
        if (a[i - 1] == b[j - 1]) {
            to[--k] = a[i - 1];
            i--, j--;
        } else if (table[i - 1][j] >= table[i][j - 1])
            i--;
        else
            j--;
    }
}

int main(void)
{
    char a[MAX + 1], b[MAX + 1], common[MAX + 1];
    int length;

    if (!get_line(a, sizeof a) || !get_line(b, sizeof b)) {
        puts("two lines are wanted");
        return 1;
    }
    length = fill(a, b);
    trace(a, b, common);
    printf("%d: ", length);
    for (char *p = common; *p; p++)
        putchar(*p == ' ' ? '_' : *p);
    putchar('\n');
    return length == 0;
}
