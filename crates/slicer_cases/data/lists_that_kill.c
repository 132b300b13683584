#include <stdio.h>
int sum(int *a, int n) {
    int s = 0;
    while (n > 0) {
        n = n - 1;
        s = s + a[n];
    }
    return s;
}
int main(void) {
    int c = getchar();
    while (c != EOF) {
        int own[2] = {1, c};
        int shared[2] = {2, c};
        printf("%d\n", own[0]);
        printf("%d\n", shared[0]);
        own[1] = 5;
        shared[1] = 6;
        int t = sum(shared, 2);
        printf("%d\n", t);
        c = getchar();
    }
}
