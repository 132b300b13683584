void free(void) {
}
int main(void) {
}
