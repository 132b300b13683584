int a[65537];
int main(void) {
    x = 1;
}
