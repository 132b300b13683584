int main(void) {
    main();
}
