struct s {
    int a[1024][1024];
    int b;
};
int main(void) {
}
