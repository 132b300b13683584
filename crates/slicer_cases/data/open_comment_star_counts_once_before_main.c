/*/
int main(void) {
}
