/* Counts the ways to put queens on a board. */
#include <stdio.h>

static unsigned ways(unsigned all, unsigned columns, unsigned left, unsigned right)
{
    unsigned count = 0, free = all & ~(columns | left | right);
    if (columns == all)
        return 1;
    while (free) {
        unsigned place = free & -free;
        free ^= place;
        count += ways(all, columns | place, (left | place) << 1, (right | place) >> 1);
    }
    return count;
}

int main(void)
{
    for (unsigned size = 1; size <= 6; size++)
        printf("%u: %u\n", size, ways((1u << size) - 1, 0, 0, 0));
    return 0;
}
