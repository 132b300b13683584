struct s {
    int a;
};
struct s {
    int a;
};
int main(void) {
}
