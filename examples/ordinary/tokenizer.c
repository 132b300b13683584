/* Tells the tokens of a small language, with their kinds. */
#include <stdio.h>
#include <string.h>
#include <ctype.h>

enum kind { END, NAME, KEYWORD, NUMBER, STRING, OPERATOR, BAD };

struct token {
    enum kind kind;
    int line;
    int length;
    char text[32];
};

static const char *keywords[] = { "if", "else", "while", "return", NULL };
static int pushed = EOF, line = 1;

static int next_char(void)
{
    int c;

    if (pushed != EOF) {
        c = pushed;
        pushed = EOF;
    } else {
        c = getchar();
    }
    if (c == '\n')
        line++;
    return c;
}

static void push_back(int c)
{
    if (c == '\n')
        line--;
    pushed = c;
}

static int is_keyword(const char *s)
{
    for (int i = 0; keywords[i] != NULL; i++)
        if (!strcmp(keywords[i], s))
            return 1;
    return 0;
}

static void keep(struct token *t, int c)
{
    if (t->length < (int)sizeof(t->text) - 1)
        t->text[t->length++] = c;
    t->text[t->length] = '\0';
}

static struct token next_token(void)
{
    struct token t = { END, 0, 0, "" };
    int c;

    while (isspace(c = next_char()))
        ;
    t.line = line;
    if (c == EOF)
        return t;
    if (isalpha(c) || c == '_') {
        do {
            keep(&t, c);
            c = next_char();
        } while (isalnum(c) || c == '_');
        push_back(c);
        t.kind = is_keyword(t.text) ? KEYWORD : NAME;
        return t;
    }
    if (isdigit(c)) {
        t.kind = NUMBER;
        for (; isdigit(c); c = next_char())
            keep(&t, c);
        push_back(c);
        return t;
    }
    switch (c) {
    case '"':
        t.kind = STRING;
        while ((c = next_char()) != '"') {
            if (c == EOF || c == '\n') {
                t.kind = BAD;
                break;
            }
            keep(&t, c);
        }
        break;
    case '=': case '<': case '>': case '!':
        keep(&t, c);
        if ((c = next_char()) == '=')
            keep(&t, c);
        else
            push_back(c);
        t.kind = OPERATOR;
        break;
    case '+': case '-': case '*': case '/':
    case '(': case ')': case '{': case '}': case ';':
        t.kind = OPERATOR;
        /* falls through */
    default:
        if (t.kind == END)
            t.kind = BAD;
        keep(&t, c);
    }
    return t;
}

int main(void)
{
    int seen[BAD + 1] = { 0 };
    struct token t;

    while ((t = next_token()).kind != END) {
        printf("%d: %d ", t.line, t.kind);
        for (int i = 0; i < t.length; i++)
            putchar(t.text[i]);
        putchar('\n');
        seen[t.kind]++;
    }
    printf("names %d, keywords %d, numbers %d, strings %d, operators %d\n",
           seen[NAME], seen[KEYWORD], seen[NUMBER], seen[STRING], seen[OPERATOR]);
    return seen[BAD] > 0;
}
