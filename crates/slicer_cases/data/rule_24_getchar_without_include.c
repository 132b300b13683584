int main(void) {
    getchar();
}
