#include <stdio.h>
int main(void) {
    char a[] = {1, 'b'};
}
