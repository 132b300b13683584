int main(void) {
    int a = '\'';
    a = '"';
}
