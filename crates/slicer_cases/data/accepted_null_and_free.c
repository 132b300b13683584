#include <stdlib.h>
int main(void) {
    int *p = NULL;
    free(p);
}
