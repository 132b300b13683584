int x;
int main(void) {
    int x;
}
