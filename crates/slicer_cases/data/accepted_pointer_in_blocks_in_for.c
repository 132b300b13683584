int main(void) {
    for (int x = 1; x; x--)
    {
        {
            int *p;
        }
    }
}
