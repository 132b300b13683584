int g;
void unused(int a) {
    g = a;
    g = g + 1;
}
int main(void) {
    int x = g;
}
