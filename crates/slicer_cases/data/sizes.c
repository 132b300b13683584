#include <stdio.h>
#include <stdlib.h>
void fill(int *p, int **out, int n) {
    *out = malloc(n * sizeof *p);
    **out = 7;
}
int main(void) {
    int *a = (int *)malloc(sizeof(int) * 3);
    a[0] = 4;
    int *b;
    fill(a, &b, 2);
    printf("%d\n", *b);
    printf("%d\n", *a);
}
