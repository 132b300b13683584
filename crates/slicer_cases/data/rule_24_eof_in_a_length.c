int a[3 + EOF];
int main(void) {
}
