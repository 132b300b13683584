struct s {
    int a;
};
int main(void) {
    struct s x;
    struct s y;
    x = y;
}
