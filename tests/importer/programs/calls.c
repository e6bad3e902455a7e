/* Functions by pointers, structures as arguments and results, and more arguments than registers. */
#include <stdio.h>

struct point {
    int x, y, z;
};

static int add(int a, int b) { return a + b; }
static int less(int a, int b) { return a - b; }
static int times(int a, int b) { return a * b; }
static int over(int a, int b) { return b ? a / b : 0; }

static int (*const operations[])(int, int) = {add, less, times, over};

static __attribute__((noinline)) struct point moved(struct point from, int by)
{
    struct point to = {from.x + by, from.y - by, from.z * by};
    return to;
}

static __attribute__((noinline)) int many(int a, int b, int c, int d, int e, int f, int g, int h, int i)
{
    return a + 2 * b + 3 * c + 4 * d + 5 * e + 6 * f + 7 * g + 8 * h + 9 * i;
}

int main(void)
{
    struct point point = {1, 2, 3};
    for (int i = 0; i < 4; i++) {
        point = moved(point, i + 2);
        printf("%d: %d %d %d\n", operations[i](84, -5 + i), point.x, point.y, point.z);
    }
    printf("%d\n", many(1, 2, 3, 4, 5, 6, 7, 8, 9));
    return 0;
}
