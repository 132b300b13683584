int main(void) {
    int x = 1;

    while (x)
        x = 0;
    do {
        int y = x;
        while (y < 3) {
            y++;
        }
        x = y;
    } while (x < 3);
}
