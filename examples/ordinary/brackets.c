/* Tells whether brackets fit, line by line, with a stack. */
#include <stdio.h>

#define DEPTH 5

static char stack[DEPTH];
static int top;

static int push(char c)
{
    if (top == DEPTH)
        return 0;
    stack[top++] = c;
    return 1;
}

static char pop(void)
{
    return top ? stack[--top] : '\0';
}

static char partner(char c)
{
    switch (c) {
    case ')': return '(';
    case ']': return '[';
    case '}': return '{';
    }
    return 0;
}

/* Reads a line; the result is 0 where all fits, -1 at the end of the input, else the place of the first fault. */
static int check_line(void)
{
    int c, place = 0, fault = 0;

    top = 0;
    while ((c = getchar()) != '\n') {
        if (c == EOF)
            return -1;
        place++;
        if (fault)
            continue;
        switch (c) {
        case '(': case '[': case '{':
            if (!push(c))
                fault = place;
            break;
        case ')': case ']': case '}':
            if (pop() != partner(c))
                fault = place;
        default:
            break;
        }
    }
    return fault ? fault : top ? place + 1 : 0;
}

int main(void)
{
    int fault, line = 0, bad = 0;

    while ((fault = check_line()) >= 0) {
        ++line;
        if (fault == 0) {
            printf("%d: fits\n", line);
            continue;
        }
        printf("%d: fault at %d\n", line, fault);
        bad++;
    }
    return bad;
}
