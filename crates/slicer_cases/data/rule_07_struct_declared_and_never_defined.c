struct s;
int main(void) {
}
