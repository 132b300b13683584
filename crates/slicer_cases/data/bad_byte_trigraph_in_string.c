int main(void) {
    "a??!b";
}
