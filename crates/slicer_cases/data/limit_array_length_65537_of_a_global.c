int a[65537];
int main(void) {
}
