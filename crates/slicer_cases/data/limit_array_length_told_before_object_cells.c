int a[1024][1025];
int b[65537];
int main(void) {
}
