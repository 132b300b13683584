int a[1024][1025];
int main(void) {
}
