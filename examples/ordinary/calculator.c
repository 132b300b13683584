/* A calculator with the usual precedence: expressions line by line, by recursive descent. */
#include <stdio.h>
#include <stdlib.h>
#include <ctype.h>

#define MAX_LINE 128

static char line[MAX_LINE];
static int pos;
static int failed;

static int expression(void);

static int peek(void)
{
    while (line[pos] == ' ')
        pos++;
    return line[pos];
}

static int accept(int c)
{
    if (peek() != c)
        return 0;
    pos++;
    return 1;
}

static int number(void)
{
    int n = 0;

    if (!isdigit(peek())) {
        failed = 1;
        return 0;
    }
    while (isdigit(line[pos]))
        n = n * 10 + (line[pos++] - '0');
    return n;
}

static int factor(void)
{
    int v;

    if (accept('-'))
        return -factor();
    if (accept('(')) {
        v = expression();
        if (!accept(')'))
            failed = 1;
        return v;
    }
    return number();
}

static int term(void)
{
    int v = factor();

    for (;;) {
        if (accept('*')) {
            v *= factor();
        } else if (accept('/')) {
            int d = factor();
            if (d == 0) {
                failed = 1;
                return 0;
            }
            v /= d;
        } else {
            return v;
        }
    }
}

static int expression(void)
{
    int v = term();

    while (!failed) {
        if (accept('+'))
            v += term();
        else if (accept('-'))
            v -= term();
        else
            break;
    }
    return v;
}

static int read_line(void)
{
    int c, n = 0;

    while ((c = getchar()) != EOF && c != '\n')
        if (n < MAX_LINE - 1)
            line[n++] = c;
    line[n] = '\0';
    return c != EOF || n > 0;
}

int main(void)
{
    int errors = 0;

    while (read_line()) {
        int v;

        pos = failed = 0;
        if (peek() == '\0')
            continue;
        v = expression();
        if (failed || peek() != '\0') {
            printf("error at %d\n", pos);
            errors++;
            continue;
        }
        printf("%d\n", v);
    }
    return errors ? EXIT_FAILURE : EXIT_SUCCESS;
}
