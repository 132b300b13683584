struct s;

int main(void) {
    int *p;
}
struct s {
    int a;
};
