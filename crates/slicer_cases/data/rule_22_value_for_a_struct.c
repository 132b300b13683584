struct s {
    int a;
};
struct s x = 1;
int main(void) {
}
