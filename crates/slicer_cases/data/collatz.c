#include <stdio.h>
int main(void) {
    int n = 10;
    int odd = 0;
    int even = 0;
    while (n > 1) {
        if (n % 2) {
            odd++;
            n = 3 * n + 1;
        } else {
            even++;
            n /= 2;
        }
    }
    printf("%d\n", odd);
    printf("%d\n", even);
}
