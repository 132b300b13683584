int g;
void set(void) {
g = 1;
}
int main(void) {
set();
int y = g;
}
