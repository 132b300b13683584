int main(void) {
    if (1) {
        while (0) {
            x = 1;
        }
    }
}
