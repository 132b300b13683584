int main(void) {
    int x;
    switch (1) {
    case x:
        break;
    }
}
