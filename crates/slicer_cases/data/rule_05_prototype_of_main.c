int main(void);
int main(void) {
}
