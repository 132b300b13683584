int getchar;
int main(void) {
}
