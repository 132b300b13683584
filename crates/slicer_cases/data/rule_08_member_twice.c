struct s {
    int a;
    int a;
};
int main(void) {
}
