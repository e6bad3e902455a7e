/* Packs a text by runs and by a window of what came before, and unpacks it. */
#include <stdio.h>
#include <string.h>

static const char text[] =
    "how much wood would a woodchuck chuck if a woodchuck could chuck wood; aaaaaaaaaaaaaaaaaaaaaaaa, as much wood as "
    "a woodchuck would";
static unsigned char packed[300];
static char unpacked[300];

static unsigned pack(const char *from, unsigned count, unsigned char *to)
{
    unsigned here = 0, put = 0;
    while (here < count) {
        unsigned best = 0, distance = 0;
        for (unsigned back = 1; back <= here && back < 64; back++) {
            unsigned same = 0;
            while (here + same < count && same < 60 && from[here + same] == from[here + same - back])
                same++;
            if (same > best)
                best = same, distance = back;
        }
        if (best >= 3) {
            to[put++] = (unsigned char)(0x80 | best);
            to[put++] = (unsigned char)distance;
            here += best;
        } else {
            to[put++] = (unsigned char)from[here++];
        }
    }
    return put;
}

static unsigned unpack(const unsigned char *from, unsigned count, char *to)
{
    unsigned put = 0;
    for (unsigned here = 0; here < count; here++)
        if (from[here] & 0x80) {
            unsigned same = from[here] & 0x7f, back = from[++here];
            for (; same--; put++)
                to[put] = to[put - back];
        } else {
            to[put++] = (char)from[here];
        }
    return put;
}

int main(void)
{
    unsigned count = sizeof text - 1, size = pack(text, count, packed);
    printf("%u bytes packed to %u\n", count, size);
    printf("%u unpacked: ", unpack(packed, size, unpacked));
    puts(memcmp(text, unpacked, count) ? "other" : "the same");
    puts(unpacked);
    return 0;
}
