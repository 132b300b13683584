#include <stdlib.h>
int main(void) {
    char *p = malloc(1048577);
}
