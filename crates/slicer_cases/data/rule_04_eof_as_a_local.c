#include <stdio.h>
int main(void) {
    int EOF = 1;
}
