int g;
int h;
void f(int a, int b) {
int t = a;
g = a;
h = t + b;
}
int main(void) {
int x = 1;
f(x, 0);
int y = g;
f(0, x);
int z = h;
y = y + z;
}
