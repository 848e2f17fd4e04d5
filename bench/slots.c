// The work of the crate bench_store on a plain array of slots.
#include <stdint.h>
#include <stdlib.h>
#include <string.h>

struct slots {
    uint8_t *memory;
    size_t width;
    uint32_t first, last, bound;
    uint64_t room;
};

static int outside(const struct slots *s, uint32_t closing, uint32_t place) {
    return closing < s->first || s->last < closing || place < 1 || s->bound <= place;
}

static size_t slot(const struct slots *s, uint32_t closing, uint32_t place) {
    return ((size_t)(closing - s->first) * s->bound + place) * (s->width + 1);
}

static int put(struct slots *s, uint32_t closing, uint32_t place, const uint8_t *record, size_t n) {
    if (outside(s, closing, place)) return 3;
    if (n != s->width) return 4;
    size_t at = slot(s, closing, place);
    if (s->memory[at] != 1) s->room -= 1;
    s->memory[at] = 1;
    memcpy(s->memory + at + 1, record, n);
    return 0;
}

static int get(struct slots *s, uint32_t closing, uint32_t place, uint8_t *record, size_t n, int *found) {
    if (outside(s, closing, place)) return 3;
    if (n != s->width) return 4;
    size_t at = slot(s, closing, place);
    *found = s->memory[at] == 1;
    if (*found) memcpy(record, s->memory + at + 1, n);
    return 0;
}

uint64_t plain_slots_work(uint32_t bound, uint32_t puts, uint32_t gets, const uint8_t *text, uint8_t *record) {
    struct slots s = { calloc(bound, 41), 40, 1, 1, bound, bound ? bound - 1 : 0 };
    if (!s.memory) return 0;
    for (size_t i = 0; i < bound; i++) s.memory[i * 41] = 0;
    uint32_t last = bound ? bound - 1 : 0, place = 1;
    uint64_t taken = 0, sum = 0;
    for (uint32_t i = 0; i < puts; i++) {
        if (put(&s, 1, place, text + i % 16, 40) == 0) taken++;
        place = place < last ? place + 1 : 1;
    }
    place = 1;
    for (uint32_t i = 0; i < gets; i++) {
        int found;
        if (get(&s, 1, place, record, 40, &found) == 0 && found) sum += record[0] + record[39];
        place = place < last ? place + 1 : 1;
    }
    // Every byte of the last record counts, so that no copy of a record can be left out.
    for (int i = 0; i < 40; i++) sum += record[i];
    free(s.memory);
    return taken + sum + s.room;
}
