int main(void) {
    int a[1024][1024];
}
