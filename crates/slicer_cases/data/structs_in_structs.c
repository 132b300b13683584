#include <stdio.h>
struct point {
    int x;
    int y;
};
struct box {
    struct point low;
    struct point high;
};
void set(struct point *p, int x, int y) {
    p->x = x;
    p->y = y;
}
int main(void) {
    struct box b;
    set(&b.low, 1, 2);
    set(&b.high, 5, 7);
    int width = b.high.x - b.low.x;
    int height = b.high.y - b.low.y;
    printf("%d\n", width);
    printf("%d\n", height);
}
