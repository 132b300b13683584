#include <stdio.h>
int main(void) {
    printf("%s", 1);
}
