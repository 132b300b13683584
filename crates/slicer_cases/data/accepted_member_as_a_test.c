struct s {
    int a;
};
int main(void) {
    struct s x;
    x.a = 1;
    if (x.a) {
    }
}
