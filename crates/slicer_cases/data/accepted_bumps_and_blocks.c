int main(void) {
    int x = 1;
    x++;
    --x;
    (x)--;
    {
        {
        }
        int y = x;
    }
    return 0;
}
