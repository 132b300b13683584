#include <stdio.h>
int main(void) {
    int a = NULL == NULL;
}
