int main() {
    int a = 1,
        b = a
        ,c;
    c = b;
}
