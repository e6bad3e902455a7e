/* Products of matrices, and a determinant modulo a prime. */
#include <stdio.h>

#define SIZE 6
#define PRIME 10007

static int one[SIZE][SIZE], other[SIZE][SIZE], product[SIZE][SIZE];

static int inverse(int value)
{
    int result = 1;
    for (int power = PRIME - 2; power; power >>= 1) {
        if (power & 1)
            result = result * value % PRIME;
        value = value * value % PRIME;
    }
    return result;
}

static int determinant(int (*matrix)[SIZE])
{
    int result = 1;
    for (int step = 0; step < SIZE; step++) {
        if (!matrix[step][step])
            return 0;
        result = result * matrix[step][step] % PRIME;
        int factor = inverse(matrix[step][step]);
        for (int row = step + 1; row < SIZE; row++) {
            int times = matrix[row][step] * factor % PRIME;
            for (int column = step; column < SIZE; column++)
                matrix[row][column] = ((matrix[row][column] - times * matrix[step][column]) % PRIME + PRIME) % PRIME;
        }
    }
    return result;
}

int main(void)
{
    for (int row = 0; row < SIZE; row++)
        for (int column = 0; column < SIZE; column++) {
            one[row][column] = (row * 7 + column * column * 3 + 1) % 11;
            other[row][column] = (row * row * 5 + column * 2 + row * column + 3) % 13;
        }
    for (int row = 0; row < SIZE; row++) {
        for (int column = 0; column < SIZE; column++) {
            for (int it = 0; it < SIZE; it++)
                product[row][column] += one[row][it] * other[it][column];
            printf("%5d", product[row][column]);
        }
        putchar('\n');
    }
    printf("determinant %d\n", determinant(product));
    return 0;
}
