/* Counts lines, words and characters of its input, and the longest word. */
#include <stdio.h>
#include <ctype.h>
#include <stdbool.h>

typedef struct {
    long lines;
    long words;
    long chars;
} counts;

static int longest = 0;

static void note_word(int length)
{
    if (length > longest)
        longest = length;
}

static counts count(void)
{
    counts c = { 0, 0, 0 };
    bool in_word = false;
    int ch, length = 0;

    while ((ch = getchar()) != EOF) {
        c.chars++;
        if (ch == '\n')
            c.lines++;
        if (isspace(ch)) {
            if (in_word)
                note_word(length);
            in_word = false;
            length = 0;
            continue;
        }
        if (!in_word) {
            in_word = true;
            c.words++;
        }
        length++;
    }
    if (in_word)
        note_word(length);
    return c;
}

int main(void)
{
    counts c = count();

    printf("%ld lines\n", c.lines);
    printf("%ld words\n", c.words);
    printf("%ld characters\n", c.chars);
    if (c.words == 0) {
        puts("no words");
        return 1;
    }
    printf("longest: %d\n", longest);
    return 0;
}
