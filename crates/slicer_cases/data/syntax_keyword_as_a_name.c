#include <stdio.h>
int main(void) {
    int while = 1;
}
