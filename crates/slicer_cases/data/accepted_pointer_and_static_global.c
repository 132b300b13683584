static char g = 1;
int main(void) {
    int *p;
}
