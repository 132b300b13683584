int main(void) {
    {
        int x;
    }
    {
        int x;
    }
}
