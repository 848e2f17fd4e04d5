/* Times the library's check against the plain C one on the same file of depth 20, in turn, and prints the ratio. */
#include <stdio.h>
#include <stdlib.h>
#include <string.h>
#include <time.h>
#include "check_plain.h"
#include "sha256.h"

uint32_t wuyllamo_check(const unsigned char *sheet, size_t sheet_len, const unsigned char *file, size_t file_len);

enum { DEPTH = 20, NODE = 40, FILE_LEN = 51 + DEPTH * NODE, SHEET_LEN = 47, TIMES = 2000, ROUNDS = 15 };

static double now(void)
{
    struct timespec t;
    clock_gettime(CLOCK_MONOTONIC, &t);
    return t.tv_sec + t.tv_nsec * 1e-9;
}

static int by_size(const void *a, const void *b)
{
    double x = *(const double *)a, y = *(const double *)b;
    return x < y ? -1 : x > y;
}

static void number(unsigned char *b, unsigned long long x)
{
    for (int i = 7; i >= 0; i--, x >>= 8)
        b[i] = (unsigned char)x;
}

/* A file with made-up steps, and the sheet under which it passes. */
static void make(unsigned char *sheet, unsigned char *file)
{
    unsigned char text[81], own[NODE];
    unsigned long long sum = 12345;
    unsigned leaf = 0x5a5a5;
    static const unsigned char head[7] = {1, 1, DEPTH, 0, 0, 0, 7};
    memcpy(file, head, 7);
    file[7] = 0, file[8] = (unsigned char)(leaf >> 16), file[9] = (unsigned char)(leaf >> 8), file[10] = (unsigned char)leaf;
    for (int i = 11; i < FILE_LEN; i++)
        file[i] = (unsigned char)(i * 7 + 3);
    number(file + 43, sum);
    for (int j = 0; j < DEPTH; j++)
        number(file + 51 + j * NODE + 32, 1000 + j);
    text[0] = 0;
    memcpy(text + 1, file + 3, 4);
    memcpy(text + 5, file + 11, 40);
    sha256_plain(text, 45, own);
    number(own + 32, sum);
    for (int j = 0; j < DEPTH; j++) {
        const unsigned char *step = file + 51 + j * NODE;
        int right = leaf >> j & 1;
        text[0] = 1;
        memcpy(text + 1 + (right ? NODE : 0), own, NODE);
        memcpy(text + 1 + (right ? 0 : NODE), step, NODE);
        sha256_plain(text, 81, own);
        sum += 1000 + j;
        number(own + 32, sum);
    }
    memcpy(sheet, head, 7);
    memcpy(sheet + 7, own, NODE);
}

int main(void)
{
    unsigned char sheet[SHEET_LEN], file[FILE_LEN];
    double ratios[ROUNDS], here = 0, plain = 0;
    make(sheet, file);
    for (int i = 0; i < FILE_LEN; i++) {
        file[i] ^= 1;
        if (wuyllamo_check(sheet, SHEET_LEN, file, FILE_LEN) != check_plain(sheet, SHEET_LEN, file, FILE_LEN)) {
            fprintf(stderr, "the checks differ with byte %d changed\n", i);
            return 1;
        }
        file[i] ^= 1;
    }
    if (!check_plain(sheet, SHEET_LEN, file, FILE_LEN)) {
        fprintf(stderr, "the file does not pass\n");
        return 1;
    }
    for (int r = 0; r < ROUNDS; r++) {
        uint32_t a = 0, b = 0;
        double t0 = now();
        for (int i = 0; i < TIMES; i++)
            a ^= wuyllamo_check(sheet, SHEET_LEN, file, FILE_LEN);
        double t1 = now();
        for (int i = 0; i < TIMES; i++)
            b ^= check_plain(sheet, SHEET_LEN, file, FILE_LEN);
        double t2 = now();
        if (a != b)
            return 1;
        ratios[r] = (t1 - t0) / (t2 - t1);
        here += t1 - t0, plain += t2 - t1;
    }
    qsort(ratios, ROUNDS, sizeof ratios[0], by_size);
    printf("checks a second at depth %d: %.0f here, %.0f plain C\n", DEPTH, ROUNDS * TIMES / here, ROUNDS * TIMES / plain);
    printf("ratio of times %.3f (at most 1.5 is wanted)\n", ratios[ROUNDS / 2]);
    return 0;
}
