int g;
int h;
void put(int a) {
    g = a;
}
void get(void) {
    h = g;
}
int main(void) {
    put(1);
    get();
    int x = h;
}
