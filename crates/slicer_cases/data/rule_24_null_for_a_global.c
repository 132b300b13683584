int *p = NULL;
int main(void) {
}
