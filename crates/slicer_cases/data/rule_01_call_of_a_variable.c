int x;
int main(void) {
    x();
}
