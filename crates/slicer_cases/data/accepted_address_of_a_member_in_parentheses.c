struct s {
    int a;
};
struct s x;
int main(void) {
    struct s y;
    x.a = y.a;
    int *p = &(x.a);
}
