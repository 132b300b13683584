int getchars;
int main(void) {
    int eof;
    int null;
}
