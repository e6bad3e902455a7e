/* Bits: counts, gray code, fields of structures, and shifts by registers. */
#include <stdio.h>

struct fields {
    unsigned low : 5, middle : 11;
    int sign : 4;
    unsigned high : 12;
};

static unsigned reversed(unsigned value)
{
    unsigned result = 0;
    for (int bit = 0; bit < 32; bit++)
        result |= (value >> bit & 1) << (31 - bit);
    return result;
}

int main(void)
{
    volatile struct fields it = {21, 1234, -3, 3001};
    printf("%u %u %d %u\n", it.low, it.middle, it.sign, it.high);
    it.middle += 1000;
    it.sign -= 6;
    printf("%u %u %d %u\n", it.low, it.middle, it.sign, it.high);
    for (unsigned n = 1; n; n *= 77)
        if (n % 5 == 1)
            printf("%08x %08x %2d %2d\n", n ^ n >> 1, reversed(n), __builtin_popcount(n), __builtin_clz(n));
        else if (n % 7 == 3)
            break;
    return 0;
}
