/* Times the library's SHA-256 against the plain C one on the same bytes, in turn, and prints the ratio of the times. */
#include <stdio.h>
#include <stdlib.h>
#include <string.h>
#include <time.h>
#include "sha256.h"

void wuyllamo_sha256(const unsigned char *text, size_t len, unsigned char *out, size_t out_len);

enum { ROUNDS = 15 };

static double now(void) {
    struct timespec t;
    clock_gettime(CLOCK_MONOTONIC, &t);
    return t.tv_sec + t.tv_nsec * 1e-9;
}

static double ours(const unsigned char *text, size_t len, long times, unsigned char out[32]) {
    double start = now();
    for (long i = 0; i < times; i++) wuyllamo_sha256(text, len, out, 32);
    return now() - start;
}

static double plain(const unsigned char *text, size_t len, long times, unsigned char out[32]) {
    double start = now();
    for (long i = 0; i < times; i++) sha256_plain(text, len, out);
    return now() - start;
}

static int by_size(const void *a, const void *b) {
    double x = *(const double *)a, y = *(const double *)b;
    return x < y ? -1 : x > y;
}

/* The median over the rounds of the ratio, after a comparison of the digests. */
static double ratio(const unsigned char *text, size_t len) {
    unsigned char a[32], b[32];
    double ratios[ROUNDS];
    long times = 16 * 1024 * 1024 / (long)(len + 64);
    for (int r = 0; r < ROUNDS; r++) {
        double x = ours(text, len, times, a), y = plain(text, len, times, b);
        if (memcmp(a, b, 32)) {
            fprintf(stderr, "the digests of %zu bytes differ\n", len);
            exit(1);
        }
        ratios[r] = x / y;
        if (r == ROUNDS / 2) printf("%7zu bytes: %6.1f MB/s here, %6.1f MB/s plain C", len, times * len / x * 1e-6, times * len / y * 1e-6);
    }
    qsort(ratios, ROUNDS, sizeof ratios[0], by_size);
    return ratios[ROUNDS / 2];
}

int main(void) {
    static const size_t lengths[] = {45, 81, 145, 1024, 65536};
    unsigned char *text = malloc(65536);
    double worst = 0;
    if (!text) return 1;
    for (size_t i = 0; i < 65536; i++) text[i] = (unsigned char)(i * 131 + 7);
    for (size_t i = 0; i < sizeof lengths / sizeof lengths[0]; i++) {
        double r = ratio(text, lengths[i]);
        printf(", ratio of times %.3f\n", r);
        if (r > worst) worst = r;
    }
    printf("largest ratio %.3f (at most 1.15 is wanted)\n", worst);
    free(text);
    return 0;
}
