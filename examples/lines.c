#include <stdio.h>
int main(void) {
    int lines = 0;
    int c = getchar();
    while (c != EOF) {
        if (c == '\n') {
            lines = lines + 1;
        }
        c = getchar();
    }
    printf("%d\n", lines);
}
