#include <stdio.h>
int main(void) {
    int a = 1;
    {
        int b = a;
        printf("%d\n", b);
    }
    {
        a = a + 2;
        {
            int d = a;
        }
    }
    printf("%d\n", a);
}
