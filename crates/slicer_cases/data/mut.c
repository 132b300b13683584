#include <stdio.h>
int odd(int n, int a);
int even(int n, int a) {
    int r = 1;
    if (n > 0) {
        r = odd(n - 1, a);
    }
    return r;
}
int odd(int n, int a) {
    int r = a;
    if (n > 0) {
        r = even(n - 1, a);
    }
    return r;
}
int main(void) {
    int c = getchar();
    int e = even(5, 7);
    int o = odd(2, c);
    printf("%d\n", e);
    printf("%d\n", o);
}
