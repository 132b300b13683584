#include <stdlib.h>
int main(void) {
    char *p = malloc(4);
    int *q = malloc(2 * sizeof *q);
    q = (int *)malloc(sizeof(int) * 3);
    free(NULL);
    free(p);
}
