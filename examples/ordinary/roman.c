/* Roman numerals into numbers, and back. */
#include <stdio.h>

struct numeral { int value; const char *letters; };

static const struct numeral numerals[] = {
    { 1000, "M" }, { 900, "CM" }, { 500, "D" }, { 400, "CD" }, { 100, "C" }, { 90, "XC" },
    { 50, "L" }, { 40, "XL" }, { 10, "X" }, { 9, "IX" }, { 5, "V" }, { 4, "IV" }, { 1, "I" },
};
enum { COUNT = sizeof numerals / sizeof numerals[0] };

static int value_of(char c)
{
    for (int i = 0; i < COUNT; i++)
        if (numerals[i].letters[0] == c && numerals[i].letters[1] == '\0')
            return numerals[i].value;
    return 0;
}

static int from_roman(const char *s)
{
    int sum = 0;

    for (; *s; s++) {
        int v = value_of(*s);
        if (!v)
            return -1;
        if (v < value_of(s[1]))
            sum -= v;
        else
            sum += v;
    }
    return sum;
}

static char *to_roman(int n, char *to)
{
    const struct numeral *p = numerals;
    char *start = to;

    while (n > 0) {
        if (n < p->value) {
            p++;
            continue;
        }
        for (const char *s = p->letters; *s; )
            *to++ = *s++;
        n -= p->value;
    }
    *to = 0;
    return start;
}

static int same(const char *a, const char *b)
{
    while (*a && *a == *b)
        a++, b++;
    return *a == *b;
}

int main(void)
{
    char word[20], back[40];
    int c, n = 0, wrong = 0;

    do {
        c = getchar();
        if (c >= 'A' && c <= 'Z' && n < 19) {
            word[n++] = c;
            continue;
        }
        word[n] = 0;
        if (n == 0)
            continue;
        n = 0;
        int v = from_roman(word);
        if (v < 0 || !same(to_roman(v, back), word)) {
            printf("not Roman (%d)\n", v);
            wrong++;
            continue;
        }
        printf("%d\n", v);
    } while (c != EOF);
    return wrong;
}
