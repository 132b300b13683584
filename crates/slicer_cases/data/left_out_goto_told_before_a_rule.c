int main(void) {
    y = 1;
    goto end;
}
