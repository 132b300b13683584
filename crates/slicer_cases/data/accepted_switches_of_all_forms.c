int main(void) {
    char x = 'a';
    switch (x) {
    case 'a':
    case 'b':
        x++;
        break;
    default:
        break;
    case 3 - 1: {
        int y = x;
    }
    }
    switch (x) {
    }
}
