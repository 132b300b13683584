static int main(void) {
}
