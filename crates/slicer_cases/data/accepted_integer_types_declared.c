int main(void) {
    unsigned x;
    char signed c = 1L;
    unsigned char d = 2u;
    short s;
    int unsigned short t = 0XFFul;
    long l = (long)c;
    long int unsigned m;
}
