/* The check of a file under a sheet in plain C: single amounts, SHA-256. */
#include "check_plain.h"

#include <stdint.h>
#include <string.h>

#include "sha256.h"

enum { DIGEST = 32, WIDTH = 8, NODE = DIGEST + WIDTH, HEAD = 7, SHEET = HEAD + NODE, FRONT = 43, DEEPEST = 20 };

static uint64_t number(const unsigned char *b, int n)
{
    uint64_t x = 0;
    for (int i = 0; i < n; i++)
        x = x << 8 | b[i];
    return x;
}

static void bytes(unsigned char *b, uint64_t x)
{
    for (int i = WIDTH - 1; i >= 0; i--, x >>= 8)
        b[i] = (unsigned char)x;
}

static int too_large(uint64_t x)
{
    return x >> 63 != 0;
}

/* The leaf's place, or 0. */
uint32_t check_plain(const unsigned char *sheet, size_t sheet_len, const unsigned char *file, size_t file_len)
{
    unsigned char text[1 + 2 * NODE], own[NODE];
    if (sheet_len != SHEET || sheet[0] != 1 || sheet[1] != 1 || sheet[2] > DEEPEST)
        return 0;
    uint32_t depth = sheet[2], closing = (uint32_t)number(sheet + 3, 4);
    if (closing < 1 || closing > 9999 || too_large(number(sheet + HEAD + DIGEST, WIDTH)))
        return 0;
    if (file_len != FRONT + WIDTH + (size_t)depth * NODE || memcmp(file, sheet, HEAD))
        return 0;
    uint32_t leaf = (uint32_t)number(file + HEAD, 4);
    if (leaf >> depth)
        return 0;
    uint64_t sum = number(file + FRONT, WIDTH);
    const unsigned char *step = file + FRONT + WIDTH;
    if (too_large(sum))
        return 0;
    for (uint32_t j = 0; j < depth; j++)
        if (too_large(number(step + j * NODE + DIGEST, WIDTH)))
            return 0;
    text[0] = 0;
    memcpy(text + 1, file + 3, 4);
    memcpy(text + 5, file + 11, 16 + 16 + WIDTH);
    sha256_plain(text, 37 + WIDTH, own);
    bytes(own + DIGEST, sum);
    for (uint32_t j = 0; j < depth; j++, step += NODE) {
        int right = leaf >> j & 1;
        sum += number(step + DIGEST, WIDTH);
        if (too_large(sum))
            return 0;
        text[0] = 1;
        memcpy(text + 1 + (right ? NODE : 0), own, NODE);
        memcpy(text + 1 + (right ? 0 : NODE), step, NODE);
        sha256_plain(text, sizeof text, own);
        bytes(own + DIGEST, sum);
    }
    return memcmp(own, sheet + HEAD, NODE) ? 0 : (1u << depth) + leaf;
}
