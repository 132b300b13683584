int main(void) {
    int NULL;
}
