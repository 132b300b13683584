#include <stdio.h>
int main(void) {
    int c = getchar(1);
}
