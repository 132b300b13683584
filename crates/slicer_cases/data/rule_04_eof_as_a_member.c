struct s {
    int a;
    int EOF;
};
int main(void) {
}
