#include <stdio.h>
int main(void) {
    char *p = malloc(4);
}
