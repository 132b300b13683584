int main(void) {
    int x = 0xE+1;
}
