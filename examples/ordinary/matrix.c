/* Small matrices: product, power, transposed, determinant. */
#include <stdio.h>

#define N 3

typedef long matrix[N][N];

static const matrix identity = { { 1, 0, 0 }, { 0, 1, 0 }, { 0, 0, 1 } };

static void multiply(long a[][N], long b[][N], long result[][N])
{
    int i, j, k;
    long sum[N][N];

    for (i = 0; i < N; i++)
        for (j = 0; j < N; j++) {
            sum[i][j] = 0;
            for (k = 0; k < N; k++)
                sum[i][j] += a[i][k] * b[k][j];
        }
    for (i = 0; i < N; i++)
        for (j = 0; j < N; j++)
            result[i][j] = sum[i][j];
}

static void copy(matrix from, matrix to)
{
    for (int i = 0; i < N; i++)
        for (int j = 0; j < N; j++)
            to[i][j] = from[i][j];
}

static void power(matrix a, int n, matrix result)
{
    matrix base, one = { { 1, 0, 0 }, { 0, 1, 0 }, { 0, 0, 1 } };

    copy(a, base);
    copy(one, result);
    while (n > 0) {
        if (n & 1)
            multiply(result, base, result);
        multiply(base, base, base);
        n >>= 1;
    }
}

static void transpose(matrix a)
{
    int i, j;

    for (i = 0; i < N; i++)
        for (j = i + 1; j < N; j++) {
            long t = a[i][j];
            a[i][j] = a[j][i];
            a[j][i] = t;
        }
}

static long determinant(matrix a)
{
    long d = 0;
    int j;

    for (j = 0; j < N; j++)
        d += a[0][j] * (a[1][(j + 1) % N] * a[2][(j + 2) % N] - a[1][(j + 2) % N] * a[2][(j + 1) % N]);
    return d;
}

static void show(long (*m)[N])
{
    for (int i = 0; i < N; i++)
        printf("%ld %ld %ld\n", m[i][0], m[i][1], m[i][2]);
    puts("");
}

int main(void)
{
    matrix m = { { 1, 2, 0 }, { 0, 1, -1 }, { 3, 1, 1 } }, p;
    int trace = 0;

    power(m, 5, p);
    show(p);
    transpose(p);
    show(p);
    for (int i = 0; i < N; i++)
        trace += p[i][i] + identity[i][i];
    printf("determinant %ld, trace %d, bytes %lu\n", determinant(m), trace, sizeof(matrix));
    return 0;
}
