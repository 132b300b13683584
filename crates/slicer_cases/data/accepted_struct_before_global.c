struct s {
    int a;
};
int g;
int main(void) {
}
