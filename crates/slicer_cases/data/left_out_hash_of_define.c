#define N 1
int main(void) {
}
