struct s {
    int a;
};
int main(void) {
    struct s x;
    if (x) {
    }
}
