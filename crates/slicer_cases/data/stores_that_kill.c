#include <stdio.h>
struct pair {
    int a;
    int b;
};
int main(void) {
    struct pair s;
    struct pair t;
    struct pair *p = &t;
    s.a = getchar();
    s.b = 2;
    s.a = 1;
    t.a = 5;
    p->a = 1;
    t.b = s.a;
    printf("%d\n", s.a);
    printf("%d\n", t.a);
    printf("%d\n", p->b);
}
