#include <stdlib.h>
int main(void) {
    int x = malloc(4);
}
