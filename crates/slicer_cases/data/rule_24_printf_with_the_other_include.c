#include <stdlib.h>
int main(void) {
    printf("a");
}
