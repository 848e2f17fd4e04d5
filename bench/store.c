// The same work as the program bench_store, on a plain array: prints the nanoseconds, and a number that shows what it did.
#include <inttypes.h>
#include <stdint.h>
#include <stdio.h>
#include <stdlib.h>
#include <time.h>

uint64_t plain_slots_work(uint32_t bound, uint32_t puts, uint32_t gets, const uint8_t *text, uint8_t *record);

int main(int n, char **args) {
    if (n != 4) {
        puts("usage: store BOUND PUTS GETS");
        return 1;
    }
    static uint8_t text[56], record[40];
    for (int i = 0; i < 56; i++) text[i] = 37 * i + 11;
    struct timespec a, b;
    clock_gettime(CLOCK_MONOTONIC, &a);
    uint64_t seen = plain_slots_work(atol(args[1]), atol(args[2]), atol(args[3]), text, record);
    clock_gettime(CLOCK_MONOTONIC, &b);
    printf("%" PRId64 " %" PRIu64 "\n", (int64_t)(b.tv_sec - a.tv_sec) * 1000000000 + b.tv_nsec - a.tv_nsec, seen);
    return 0;
}
