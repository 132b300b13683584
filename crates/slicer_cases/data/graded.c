int passed;
int grade(int points, int bonus) {
    int g = 1;
    int all = points + bonus;
    if (all > 50) {
        g = 2;
        passed = passed + 1;
    } else if (points > 40) {
        g = 3;
    }
    return g;
}
int main(void) {
    int a = grade(30, 25);
    int b = grade(45, 1);
    int c = a + b;
    int d = passed;
}
