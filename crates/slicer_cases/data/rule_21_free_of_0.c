#include <stdlib.h>
int main(void) {
    free(0);
}
