int main(int a) {
}
