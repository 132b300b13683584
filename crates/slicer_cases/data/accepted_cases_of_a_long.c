int main(void) {
    switch (1L) {
    case 1:
        break;
    case 4294967297:
    default: {
        int x;
    }
    }
}
