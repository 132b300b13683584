int f(void) {
}
int main(void) {
}
