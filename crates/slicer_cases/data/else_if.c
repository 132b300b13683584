#include <stdio.h>
int main(void) {
    int mark = 71;
    int grade = 'f';
    int bonus = 0;
    if (mark >= 90) {
        grade = 'a';
        bonus = 2;
    } else if (mark >= 75) {
        grade = 'b';
    } else if (mark >= 60) {
        bonus = 1;
        grade = 'c';
    } else {
        grade = 'd';
    }
    mark += bonus;
    putchar(grade);
    printf("%d\n", mark);
}
