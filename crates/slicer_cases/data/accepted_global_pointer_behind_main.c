int main(void) {
}
int g;
int *h;
