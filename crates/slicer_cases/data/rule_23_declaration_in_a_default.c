int main(void) {
    switch (0) {
    default:
        int x = 1;
    }
}
