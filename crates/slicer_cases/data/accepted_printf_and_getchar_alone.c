#include <stdio.h>
int main(void) {
    printf("a");
    getchar();
}
