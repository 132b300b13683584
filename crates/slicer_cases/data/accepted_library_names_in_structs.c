struct printf {
    int malloc;
};
int main(void) {
    struct printf free_one;
    free_one.malloc = 1;
}
