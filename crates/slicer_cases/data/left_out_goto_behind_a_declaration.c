int main(void) {
    int x = 1;
    goto end;
}
