int malloc;
int main(void) {
}
