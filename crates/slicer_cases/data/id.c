int id(int a) {
return a;
}
int main(void) {
int x = 1;
int y = id(x);
int z = id(2);
}
