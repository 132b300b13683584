int x = 1 + 2;
int *p = 0;
int main(void) {
}
