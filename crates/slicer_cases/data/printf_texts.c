
#include <stdlib.h>

#include <stdio.h>
int main(void)
{

    int a = 1;


    printf("a is %d, b is %d.\n", a, a + 1);
    printf("none\n");
    int b = 2;
}
