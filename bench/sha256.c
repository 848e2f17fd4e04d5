/* SHA-256 in plain C: one loop over 64 rounds with a schedule of 64 words. */

#include "sha256.h"

#include <stdint.h>
#include <string.h>

#define BLOCK 64
#define LENGTH_AT 56

#define ROTATE(x, n) (((x) >> (n)) | ((x) << (32 - (n))))
#define CHOICE(x, y, z) (((x) & (y)) ^ (~(x) & (z)))
#define MAJORITY(x, y, z) (((x) & (y)) ^ ((x) & (z)) ^ ((y) & (z)))
#define BIG_0(x) (ROTATE(x, 2) ^ ROTATE(x, 13) ^ ROTATE(x, 22))
#define BIG_1(x) (ROTATE(x, 6) ^ ROTATE(x, 11) ^ ROTATE(x, 25))
#define SMALL_0(x) (ROTATE(x, 7) ^ ROTATE(x, 18) ^ ((x) >> 3))
#define SMALL_1(x) (ROTATE(x, 17) ^ ROTATE(x, 19) ^ ((x) >> 10))

/* First 32 bits of the fractions of the cube roots of the first 64 primes. */
static const uint32_t ROUND[64] = {
    0x428a2f98, 0x71374491, 0xb5c0fbcf, 0xe9b5dba5, 0x3956c25b, 0x59f111f1, 0x923f82a4, 0xab1c5ed5,
    0xd807aa98, 0x12835b01, 0x243185be, 0x550c7dc3, 0x72be5d74, 0x80deb1fe, 0x9bdc06a7, 0xc19bf174,
    0xe49b69c1, 0xefbe4786, 0x0fc19dc6, 0x240ca1cc, 0x2de92c6f, 0x4a7484aa, 0x5cb0a9dc, 0x76f988da,
    0x983e5152, 0xa831c66d, 0xb00327c8, 0xbf597fc7, 0xc6e00bf3, 0xd5a79147, 0x06ca6351, 0x14292967,
    0x27b70a85, 0x2e1b2138, 0x4d2c6dfc, 0x53380d13, 0x650a7354, 0x766a0abb, 0x81c2c92e, 0x92722c85,
    0xa2bfe8a1, 0xa81a664b, 0xc24b8b70, 0xc76c51a3, 0xd192e819, 0xd6990624, 0xf40e3585, 0x106aa070,
    0x19a4c116, 0x1e376c08, 0x2748774c, 0x34b0bcb5, 0x391c0cb3, 0x4ed8aa4a, 0x5b9cca4f, 0x682e6ff3,
    0x748f82ee, 0x78a5636f, 0x84c87814, 0x8cc70208, 0x90befffa, 0xa4506ceb, 0xbef9a3f7, 0xc67178f2,
};

/* First 32 bits of the fractions of the square roots of the first eight primes. */
static const uint32_t START[8] = {
    0x6a09e667, 0xbb67ae85, 0x3c6ef372, 0xa54ff53a, 0x510e527f, 0x9b05688c, 0x1f83d9ab, 0x5be0cd19,
};

static uint32_t read_word(const unsigned char *from)
{
    return (uint32_t)from[0] << 24 | (uint32_t)from[1] << 16 | (uint32_t)from[2] << 8 | from[3];
}

static void write_word(unsigned char *to, uint32_t word)
{
    to[0] = (unsigned char)(word >> 24);
    to[1] = (unsigned char)(word >> 16);
    to[2] = (unsigned char)(word >> 8);
    to[3] = (unsigned char)word;
}

static void add_block(uint32_t chain[8], const unsigned char block[BLOCK])
{
    uint32_t x[64];
    uint32_t a = chain[0], b = chain[1], c = chain[2], d = chain[3];
    uint32_t e = chain[4], f = chain[5], g = chain[6], h = chain[7];

    for (int t = 0; t < 16; t++)
        x[t] = read_word(block + 4 * t);
    for (int t = 16; t < 64; t++)
        x[t] = SMALL_1(x[t - 2]) + x[t - 7] + SMALL_0(x[t - 15]) + x[t - 16];

    for (int t = 0; t < 64; t++) {
        uint32_t t1 = h + BIG_1(e) + CHOICE(e, f, g) + ROUND[t] + x[t];
        uint32_t t2 = BIG_0(a) + MAJORITY(a, b, c);
        h = g;
        g = f;
        f = e;
        e = d + t1;
        d = c;
        c = b;
        b = a;
        a = t1 + t2;
    }

    chain[0] += a;
    chain[1] += b;
    chain[2] += c;
    chain[3] += d;
    chain[4] += e;
    chain[5] += f;
    chain[6] += g;
    chain[7] += h;
}

void sha256_plain(const unsigned char *text, size_t len, unsigned char out[32])
{
    uint32_t chain[8];
    unsigned char end[2 * BLOCK] = {0};
    uint64_t bits = (uint64_t)len * 8;
    size_t rest = len % BLOCK;
    size_t end_len = rest < LENGTH_AT ? BLOCK : 2 * BLOCK;

    memcpy(chain, START, sizeof chain);
    for (size_t at = 0; at < len - rest; at += BLOCK)
        add_block(chain, text + at);

    if (rest > 0)
        memcpy(end, text + (len - rest), rest);
    end[rest] = 0x80;
    write_word(end + end_len - 8, (uint32_t)(bits >> 32));
    write_word(end + end_len - 4, (uint32_t)bits);
    for (size_t at = 0; at < end_len; at += BLOCK)
        add_block(chain, end + at);

    for (int i = 0; i < 8; i++)
        write_word(out + 4 * i, chain[i]);
}
