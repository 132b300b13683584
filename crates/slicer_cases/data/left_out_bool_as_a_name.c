#include <stdio.h>
int main(void) {
    int _Bool;
}
