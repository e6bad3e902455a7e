/* Bytes and halfwords, with and without signs, at every place of a word. */
#include <stdio.h>

static signed char bytes[] = {0, 1, -1, 127, -128, 64, -64};
static short halves[] = {0, 1, -1, 32767, -32768, 1000, -1000};
static unsigned char plain[7];
static unsigned short wide[7];

int main(void)
{
    int sum = 0;
    unsigned total = 0;
    for (int i = 0; i < 7; i++) {
        sum += bytes[i] * 3 + halves[6 - i];
        plain[i] = (unsigned char)(bytes[i] + 5);
        wide[i] = (unsigned short)(halves[i] - 7);
        total = total * 5 + plain[i] + wide[i];
        printf("%d %d %u %u\n", bytes[i], halves[i], plain[i], wide[i]);
    }
    printf("%d %u\n", sum, total);
    return 0;
}
