/* Deep and wide recursion, which moves windows to the stack and back. */
#include <stdio.h>

static unsigned ackermann(unsigned m, unsigned n)
{
    if (!m)
        return n + 1;
    return n ? ackermann(m - 1, ackermann(m, n - 1)) : ackermann(m - 1, 1);
}

static unsigned depth(unsigned n)
{
    volatile unsigned kept = n;
    return n ? depth(n - 1) + kept : 0;
}

static unsigned moves(unsigned discs, unsigned from, unsigned to)
{
    return discs ? moves(discs - 1, from, 6 - from - to) + moves(discs - 1, 6 - from - to, to) + from * to : 0;
}

int main(void)
{
    printf("%u %u %u\n", ackermann(2, 5), depth(300), moves(8, 1, 3));
    return 0;
}
