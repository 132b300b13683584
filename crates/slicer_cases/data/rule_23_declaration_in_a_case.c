int main(void) {
    switch (1) {
    case 1:
        int x;
        break;
    }
}
