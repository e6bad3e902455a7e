/* Static names that stand twice, static locals, and addresses within and behind objects. */
#include <stdio.h>

static int table[8] = {5, 3, 8, 1, 9, 2, 7, 4};
static int *const fourth = &table[3];
static int *const behind = table + 8;
int shared[3] = {11, 22, 33};
int *const last = &shared[2];

static __attribute__((noinline)) int first_counter(void)
{
    static int counter = 10;
    return counter += 3;
}

static __attribute__((noinline)) int second_counter(void)
{
    static int counter = 100;
    return counter -= 7;
}

int main(void)
{
    int sum = 0;
    for (int *it = table; it != behind; it++)
        sum = 2 * sum + *it;
    printf("%d %d %d\n", sum, *fourth, *last);
    for (int i = 0; i < 3; i++)
        printf("%d %d\n", first_counter(), second_counter());
    return 0;
}
