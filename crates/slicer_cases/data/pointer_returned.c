#include <stdio.h>
int low;
int high;
int *side(int c) {
    int *p = &low;
    if (c > 64) {
        p = &high;
    }
    return p;
}
int *top(void) {
    high = high + 1;
    return &high;
}
int main(void) {
    int c = getchar();
    int *q = side(c);
    *q = c;
    int *t = top();
    printf("%d\n", *t);
    printf("%d\n", low);
}
