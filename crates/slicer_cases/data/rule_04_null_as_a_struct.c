struct NULL {
    int a;
};
int main(void) {
}
