#include <stdio.h>
int main(void) {
    int 9a = 1;
}
