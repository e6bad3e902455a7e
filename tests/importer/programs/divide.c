/* Quotients and rests of every sign, by constants and by values. */
#include <stdio.h>

static volatile int values[] = {0, 1, -1, 7, -7, 1000003, -1000003, 2147483647};

int main(void)
{
    for (unsigned i = 0; i < 8; i++) {
        int a = values[i];
        printf("%d: %d %d %d %d", a, a / 7, a % 7, a / 10, a % 10);
        for (unsigned j = 3; j < 6; j++)
            printf(" %d %d", a / values[j], a % values[j]);
        printf(" %u %u\n", (unsigned)a / 3u, (unsigned)a % 1000u);
    }
    return 0;
}
