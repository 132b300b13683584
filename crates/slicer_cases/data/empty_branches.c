int main(void) {
    int a = 1;
    if (a) ; else {{;}}
    a = 2;
}
