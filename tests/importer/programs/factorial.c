/* Long numbers by digits: factorials and powers of 2. */
#include <stdio.h>

#define DIGITS 60
static unsigned char digits[DIGITS];

static void multiply(unsigned factor)
{
    unsigned carry = 0;
    for (int i = 0; i < DIGITS; i++) {
        carry += digits[i] * factor;
        digits[i] = carry % 10;
        carry /= 10;
    }
}

static void tell(void)
{
    int last = DIGITS - 1;
    while (last && !digits[last])
        last--;
    while (last >= 0)
        putchar('0' + digits[last--]);
    putchar('\n');
}

int main(void)
{
    digits[0] = 1;
    for (unsigned factor = 2; factor <= 25; factor++)
        multiply(factor);
    tell();
    for (int times = 0; times < 50; times++)
        multiply(2);
    tell();
    return 0;
}
