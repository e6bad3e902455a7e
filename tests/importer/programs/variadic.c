/* Functions with any number of arguments. */
#include <stdarg.h>
#include <stdio.h>

static int sum(int count, ...)
{
    int total = 0;
    va_list rest;
    va_start(rest, count);
    while (count--)
        total = 3 * total + va_arg(rest, int);
    va_end(rest);
    return total;
}

static long long mixed(const char *kinds, ...)
{
    long long total = 0;
    va_list rest;
    va_start(rest, kinds);
    for (; *kinds; kinds++)
        if (*kinds == 'w')
            total += va_arg(rest, long long);
        else if (*kinds == 's')
            total += *va_arg(rest, const char *);
        else
            total -= va_arg(rest, int);
    va_end(rest);
    return total;
}

int main(void)
{
    long long total = mixed("iwsiw", 5, 1ll << 40, "A", 7, -(1ll << 33));
    printf("%d %d %d\n", sum(0), sum(3, 1, 2, 3), sum(9, 1, 2, 3, 4, 5, 6, 7, 8, 9));
    printf("%08x%08x\n", (unsigned)(total >> 32), (unsigned)total);
    return 0;
}
