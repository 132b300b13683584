int a;
int a;
int main(void) {
    x = 1;
}
