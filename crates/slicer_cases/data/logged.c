#include <stdio.h>
int level;
void log_at(int least, int code) {
    if (level > least) {
        putchar(code);
    }
}
void raise(int by) {
    level += by;
}
int main(void) {
    int c = 'a';
    log_at(0, c);
    raise(2);
    log_at(1, c + 1);
    raise(3);
}
