/* Hashes of texts whose values are known: CRC-32, FNV-1a and SHA-256. */
#include <stdio.h>
#include <string.h>

typedef unsigned char byte;

static const unsigned round_constants[64] = {
    0x428a2f98, 0x71374491, 0xb5c0fbcf, 0xe9b5dba5, 0x3956c25b, 0x59f111f1, 0x923f82a4, 0xab1c5ed5, 0xd807aa98, 0x12835b01, 0x243185be,
    0x550c7dc3, 0x72be5d74, 0x80deb1fe, 0x9bdc06a7, 0xc19bf174, 0xe49b69c1, 0xefbe4786, 0x0fc19dc6, 0x240ca1cc, 0x2de92c6f, 0x4a7484aa,
    0x5cb0a9dc, 0x76f988da, 0x983e5152, 0xa831c66d, 0xb00327c8, 0xbf597fc7, 0xc6e00bf3, 0xd5a79147, 0x06ca6351, 0x14292967, 0x27b70a85,
    0x2e1b2138, 0x4d2c6dfc, 0x53380d13, 0x650a7354, 0x766a0abb, 0x81c2c92e, 0x92722c85, 0xa2bfe8a1, 0xa81a664b, 0xc24b8b70, 0xc76c51a3,
    0xd192e819, 0xd6990624, 0xf40e3585, 0x106aa070, 0x19a4c116, 0x1e376c08, 0x2748774c, 0x34b0bcb5, 0x391c0cb3, 0x4ed8aa4a, 0x5b9cca4f,
    0x682e6ff3, 0x748f82ee, 0x78a5636f, 0x84c87814, 0x8cc70208, 0x90befffa, 0xa4506ceb, 0xbef9a3f7, 0xc67178f2};

static unsigned rotate(unsigned value, int count)
{
    return value >> count | value << (32 - count);
}

static void take_block(unsigned *hash, const byte *block)
{
    unsigned words[64], state[8];
    for (int i = 0; i < 16; i++)
        words[i] = (unsigned)block[4 * i] << 24 | block[4 * i + 1] << 16 | block[4 * i + 2] << 8 | block[4 * i + 3];
    for (int i = 16; i < 64; i++) {
        unsigned low = rotate(words[i - 15], 7) ^ rotate(words[i - 15], 18) ^ words[i - 15] >> 3;
        unsigned high = rotate(words[i - 2], 17) ^ rotate(words[i - 2], 19) ^ words[i - 2] >> 10;
        words[i] = words[i - 16] + low + words[i - 7] + high;
    }
    memcpy(state, hash, sizeof state);
    for (int i = 0; i < 64; i++) {
        unsigned a = state[0], e = state[4];
        unsigned first = state[7] + (rotate(e, 6) ^ rotate(e, 11) ^ rotate(e, 25)) + ((e & state[5]) ^ (~e & state[6])) + round_constants[i] + words[i];
        unsigned second = (rotate(a, 2) ^ rotate(a, 13) ^ rotate(a, 22)) + ((a & state[1]) ^ (a & state[2]) ^ (state[1] & state[2]));
        memmove(state + 1, state, 7 * sizeof *state);
        state[4] += first;
        state[0] = first + second;
    }
    for (int i = 0; i < 8; i++)
        hash[i] += state[i];
}

static void sha256(const char *text, unsigned *hash)
{
    static const unsigned start[8] = {0x6a09e667, 0xbb67ae85, 0x3c6ef372, 0xa54ff53a, 0x510e527f, 0x9b05688c, 0x1f83d9ab, 0x5be0cd19};
    byte block[64];
    unsigned size = strlen(text), here = 0;
    memcpy(hash, start, sizeof start);
    for (; size - here >= 64; here += 64)
        take_block(hash, (const byte *)text + here);
    memset(block, 0, sizeof block);
    memcpy(block, text + here, size - here);
    block[size - here] = 0x80;
    if (size - here >= 56) {
        take_block(hash, block);
        memset(block, 0, sizeof block);
    }
    for (int i = 0; i < 4; i++)
        block[60 + i] = (byte)(size * 8 >> (24 - 8 * i));
    take_block(hash, block);
}

static unsigned crc32(const char *text)
{
    unsigned rest = ~0u;
    for (; *text; text++) {
        rest ^= (byte)*text;
        for (int bit = 0; bit < 8; bit++)
            rest = rest >> 1 ^ (rest & 1 ? 0xedb88320 : 0);
    }
    return ~rest;
}

static unsigned fnv_1a(const char *text)
{
    unsigned hash = 2166136261u;
    for (; *text; text++)
        hash = (hash ^ (byte)*text) * 16777619u;
    return hash;
}

int main(void)
{
    static const char *const texts[] = {"", "abc", "123456789", "abcdbcdecdefdefgefghfghighijhijkijkljklmklmnlmnomnopnopq"};
    for (unsigned i = 0; i < sizeof texts / sizeof *texts; i++) {
        unsigned hash[8];
        sha256(texts[i], hash);
        printf("\"%s\"\n  crc-32  %08x\n  fnv-1a  %08x\n  sha-256 ", texts[i], crc32(texts[i]), fnv_1a(texts[i]));
        for (int part = 0; part < 8; part++)
            printf("%08x", hash[part]);
        printf("\n");
    }
    return 0;
}
