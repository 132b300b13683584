struct s {
    struct s a;
};
int main(void) {
}
