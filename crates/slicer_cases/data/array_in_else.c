int main(void) {
    int i = 1;
    if (i)
        i = 0;
    else {
        int a[2] = {1};
    }
}
