#include <stdio.h>
int *p = NULL;
int a[3 + EOF];
int main(void) {
    int c = EOF;
}
