#include <stdio.h>
struct pair {
    int a;
    int b;
};
struct pair g;
int main(void) {
    struct pair *p = &g;
    p->a = 1;
    p->b = 2;
    g.a = 3;
    printf("%d\n", p->a);
    printf("%d\n", g.b);
    printf("%d\n", g.a + p->b);
}
