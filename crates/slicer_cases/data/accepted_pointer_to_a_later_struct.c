struct t;
struct s {
    struct t *a;
    int b;
};
struct t {
    int b;
};
int main(void) {
}
