int main(void) {
    switch (1) {
    case 1:
        break;
    case 2:
        break;
    }
}
