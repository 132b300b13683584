
int main(void) {
}
struct s {
    int a;
};
