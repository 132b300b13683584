/* Removes the comments of C from its input: a state machine. */
#include <stdio.h>

enum state { CODE, SLASH, LINE, BLOCK, STAR, STRING, ESCAPE };

static int removed = 0;

static enum state code(int c)
{
    switch (c) {
    case '/':
        return SLASH;
    case '"':
        putchar(c);
        return STRING;
    default:
        putchar(c);
        return CODE;
    }
}

static enum state next(enum state s, int c)
{
    switch (s) {
    case CODE:
        return code(c);
    case SLASH:
        if (c == '/') {
            removed++;
            return LINE;
        }
        if (c == '*') {
            removed++;
            return BLOCK;
        }
        putchar('/');
        return code(c);
    case LINE:
        if (c != '\n')
            return LINE;
        putchar(c);
        return CODE;
    case STAR:
        if (c == '/') {
            putchar(' ');
            return CODE;
        }
        /* falls through */
    case BLOCK:
        return c == '*' ? STAR : BLOCK;
    case ESCAPE:
        putchar(c);
        return STRING;
    case STRING:
        putchar(c);
        if (c == '\\')
            return ESCAPE;
        return c == '"' ? CODE : STRING;
    }
    return CODE;
}

int main(void)
{
    enum state s = CODE;
    int c;

    while ((c = getchar()) != EOF)
        s = next(s, c);
    if (s == SLASH)
        putchar('/');
    printf("%d removed\n", removed);
    if (s == BLOCK || s == STAR)
        return 1;
    return 0;
}
