#include <stdio.h>
int main(void) {
    int c = EOF;
    switch (c) {
    case EOF:
        putchar('x');
    }
}
