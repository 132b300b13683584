#include <stdio.h>
int walk(int depth, int *above) {
    int mine[2];
    mine[0] = depth;
    mine[1] = 1;
    above[1] = depth;
    int r = 0;
    if (depth > 0) {
        r = walk(depth - 1, mine);
        r = r + mine[1];
    }
    return r;
}
int main(void) {
    int first[2];
    int c = getchar();
    int w = walk(c, first);
    printf("%d\n", w);
    printf("%d\n", first[1]);
}
