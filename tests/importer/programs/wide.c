/* Numbers of 64 bits: sums, products, quotients and shifts, some of which are functions of the runtime. */
#include <stdio.h>

typedef unsigned long long wide;

static void tell(const char *name, wide value)
{
    printf("%-9s %08x%08x\n", name, (unsigned)(value >> 32), (unsigned)value);
}

static volatile wide big = 0xfedcba9876543210ull, small = 0x123456789ull;
static volatile long long minus = -1234567890123456789ll;
static volatile int count = 37;

int main(void)
{
    tell("sum", big + small);
    tell("less", small - big);
    tell("product", big * small);
    tell("quotient", big / small);
    tell("rest", big % small);
    tell("signed", (wide)(minus / 1000003));
    tell("rest", (wide)(minus % 1000003));
    tell("left", small << count);
    tell("right", big >> count);
    tell("signed", (wide)(minus >> count));
    tell("by 0", (small << (count - 37)) ^ (big >> (count - 37)));
    tell("order", (wide)(minus < (long long)small) << 1 | (big > small));
    return 0;
}
