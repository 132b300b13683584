int main(void) {
    switch (1) {
    case 1:
        break;
    case 4294967297:
        break;
    }
}
