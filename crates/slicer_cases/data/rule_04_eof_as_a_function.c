int EOF(void) {
    return 1;
}
int main(void) {
}
