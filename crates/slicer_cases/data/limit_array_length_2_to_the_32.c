int a[4294967296];
int main(void) {
}
