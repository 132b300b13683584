/* Sorts the numbers of its input by quicksort, and looks some up by halving. */
#include <stdio.h>

#define MAX 64
#define SWAP(a, b) do { int tmp = (a); (a) = (b); (b) = tmp; } while (0)

static int compares;

static int less(int a, int b)
{
    compares++;
    return a < b;
}

static void quicksort(int a[], int low, int high)
{
    int i, last;

    if (low >= high)
        return;
    SWAP(a[low], a[(low + high) / 2]);
    last = low;
    for (i = low + 1; i <= high; i++)
        if (less(a[i], a[low])) {
            ++last;
            SWAP(a[last], a[i]);
        }
    SWAP(a[low], a[last]);
    quicksort(a, low, last - 1);
    quicksort(a, last + 1, high);
}

static int search(const int *a, int n, int x)
{
    int low = 0, high = n - 1;

    while (low <= high) {
        int middle = (low + high) / 2;
        if (a[middle] == x)
            return middle;
        if (a[middle] < x)
            low = middle + 1;
        else
            high = middle - 1;
    }
    return -1;
}

static int read_numbers(int a[])
{
    int c, n = 0, value = 0, digits = 0, sign = 1;

    do {
        c = getchar();
        if (c >= '0' && c <= '9') {
            value = value * 10 + c - '0';
            digits++;
        } else {
            if (digits && n < MAX)
                a[n++] = sign * value;
            value = digits = 0;
            sign = c == '-' ? -1 : 1;
        }
    } while (c != EOF);
    return n;
}

int main(void)
{
    int a[MAX], n, i;

    n = read_numbers(a);
    quicksort(a, 0, n - 1);
    for (i = 0; i < n; i++)
        printf("%d%c", a[i], i + 1 < n ? ' ' : '\n');
    printf("%d at %d, %d at %d\n", 7, search(a, n, 7), 8, search(a, n, 8));
    printf("%d compares\n", compares);
    return 0;
}
