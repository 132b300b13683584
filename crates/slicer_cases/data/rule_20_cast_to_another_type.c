#include <stdlib.h>
int main(void) {
    int *p = (char *)malloc(sizeof(int));
}
