struct pair {
    int *p;
    int n;
};
int main(void) {
    struct pair a[512][1025];
    a[1][2].n = 3;
    a[3][4].p = &a[1][2].n;
}
