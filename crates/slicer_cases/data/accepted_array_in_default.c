int main(void) {
    int x = 1;
    switch (x) {
    default: {
        int a[2];
    }
    }
}
