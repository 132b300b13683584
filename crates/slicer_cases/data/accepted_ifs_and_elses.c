int main(void) {
    int x = 1;
    if (x) ;
    if (x)
        x = 0;
    else if (x + 1) {
        x = 2;
    } else {
        int y = 3;
    }
    return x;
}
