/* A sieve over bytes. */
#include <stdio.h>

#define MOST 2000
static unsigned char composite[MOST];

int main(void)
{
    unsigned count = 0, last = 0;
    for (unsigned n = 2; n < MOST; n++) {
        if (composite[n])
            continue;
        count++;
        last = n;
        for (unsigned multiple = n * n; multiple < MOST; multiple += n)
            composite[multiple] = 1;
    }
    printf("%u primes below %u, the last is %u\n", count, MOST, last);
    return 0;
}
