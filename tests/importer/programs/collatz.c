/* The longest walk of a famous kind, with a table of what is known. */
#include <stdio.h>

#define MOST 300
static unsigned short known[MOST];

static unsigned length(unsigned n)
{
    unsigned steps = 1;
    if (n < MOST && known[n])
        return known[n];
    if (n != 1)
        steps += length(n & 1 ? 3 * n + 1 : n / 2);
    if (n < MOST)
        known[n] = (unsigned short)steps;
    return steps;
}

int main(void)
{
    unsigned best = 1;
    for (unsigned n = 1; n < MOST; n++)
        if (length(n) > length(best))
            best = n;
    printf("%u: %u\n", best, length(best));
    return 0;
}
