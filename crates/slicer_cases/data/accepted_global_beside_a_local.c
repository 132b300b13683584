int y;
int main(void) {
    int x;
}
