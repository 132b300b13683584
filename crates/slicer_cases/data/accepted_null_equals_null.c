#include <stdio.h>
int main(void) {
    int x = NULL == NULL;
}
