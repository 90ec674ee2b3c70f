/* One call of the library for C, whose instructions are to be counted. bench/counts builds it, and runs it under valgrind's callgrind.
 *
 *     counts CALL CODE      where CALL is encode, column, spread or repair, and a CODE is K+M:W
 *
 * It makes a codeword, makes the call once, so that the caches have what they can keep, and once more with counting switched on, and compares
 * what it wrote. "column" recovers the first M chunks, which stand in one column of the grid where K is M or more; "spread" M chunks of
 * several columns; "repair" rebuilds chunk 0. Printed are three numbers of bytes: those that figures are told for, which are the stripe's or
 * for a repair the lost chunk's, and the least that the call has to read and to write. */
#include <clay.h>
#include <stdio.h>
#include <stdlib.h>
#include <string.h>
#include <valgrind/callgrind.h>

enum { MOST_CHUNKS = 24, MOST_LAYERS = 1024 };
enum call { ENCODE, COLUMN, SPREAD, REPAIR, CALLS };
static const char *const names[CALLS] = {"encode", "column", "spread", "repair"};

/* A code, a codeword's chunks one behind another with those that are there, and the parts that a repair reads. */
struct stripe {
    uint32_t k, m, w;
    struct clay_numbers numbers;
    uint8_t present[MOST_CHUNKS], *chunks, *parts;
    size_t len, parts_len;
};

static void expect(int holds, const char *what) {
    if (holds)
        return;
    fprintf(stderr, "counts: %s\n", what);
    exit(1);
}

static uint8_t *made(size_t len) {
    uint8_t *bytes = malloc(len);
    expect(bytes != NULL, "out of memory");
    return bytes;
}

static uint32_t answer(const struct stripe *s, enum call call) {
    size_t data = s->numbers.stripe_len;
    switch (call) {
    case ENCODE:
        return clay_parity(s->k, s->m, s->w, s->chunks, data, s->chunks + data, s->len - data);
    case REPAIR:
        return clay_rebuild(s->k, s->m, s->w, 0, s->parts, s->parts_len, s->chunks, s->numbers.chunk_len);
    default:
        return clay_recover(s->k, s->m, s->w, s->present, s->numbers.chunks, s->chunks, s->len);
    }
}

static struct stripe begun(const char *code) {
    struct stripe s;
    expect(sscanf(code, "%u+%u:%u", &s.k, &s.m, &s.w) == 3, "a code is K+M:W");
    expect(clay_geometry(s.k, s.m, s.w, &s.numbers) == CLAY_DONE, "no code has these numbers");
    s.len = (size_t)s.numbers.chunks * s.numbers.chunk_len;
    s.chunks = made(s.len);
    for (size_t i = 0; i < s.numbers.stripe_len; i++)
        s.chunks[i] = (uint8_t)(i * 167 + (i >> 8) * 13);
    expect(answer(&s, ENCODE) == CLAY_DONE, "an encoding");
    s.parts_len = (size_t)(s.numbers.chunks - 1) * s.numbers.part_len;
    s.parts = made(s.parts_len);
    memset(s.present, 1, sizeof s.present);
    return s;
}

/* Takes the parts of all chunks but the first. */
static void take_parts(struct stripe *s) {
    uint32_t layers[MOST_LAYERS], count = s->numbers.layers / s->m;
    expect(clay_repair_layers(s->k, s->m, s->w, 0, layers, count) == CLAY_DONE, "the layers of a repair");
    uint8_t *part = s->parts;
    for (uint32_t c = 1; c < s->numbers.chunks; c++)
        for (uint32_t i = 0; i < count; i++, part += s->w)
            memcpy(part, s->chunks + (size_t)c * s->numbers.chunk_len + (size_t)layers[i] * s->w, s->w);
}

/* Spread losses are node 0, one of the next column and so on, and parity chunks where the data chunks end. */
static void lose(struct stripe *s, enum call call) {
    for (uint32_t e = 0; e < (call == REPAIR ? 1 : s->m); e++) {
        uint32_t chunk = call == ENCODE ? s->k + e : call == SPREAD ? e * (s->m + 1) : e;
        s->present[call != SPREAD || chunk < s->k ? chunk : s->k + e] = 0;
    }
}

/* What stands where the call writes doesn't count. */
static void spoil(const struct stripe *s) {
    for (uint32_t c = 0; c < s->numbers.chunks; c++)
        if (!s->present[c])
            memset(s->chunks + (size_t)c * s->numbers.chunk_len, 0xEE, s->numbers.chunk_len);
}

int main(int count, char **words) {
    expect(count == 3, "usage: counts encode|column|spread|repair K+M:W");
    enum call call = ENCODE;
    while (call < CALLS && strcmp(words[1], names[call]) != 0)
        call++;
    expect(call < CALLS, "a call is encode, column, spread or repair");
    struct stripe s = begun(words[2]);
    uint8_t *wanted = made(s.len);
    memcpy(wanted, s.chunks, s.len);
    take_parts(&s);
    lose(&s, call);
    CALLGRIND_START_INSTRUMENTATION;
    for (int counted = 0; counted < 2; counted++) {
        spoil(&s);
        if (counted)
            CALLGRIND_TOGGLE_COLLECT;
        uint32_t status = answer(&s, call);
        if (counted)
            CALLGRIND_TOGGLE_COLLECT;
        expect(status == CLAY_DONE, "the call");
    }
    CALLGRIND_STOP_INSTRUMENTATION;
    expect(memcmp(s.chunks, wanted, s.len) == 0, "the call wrote other bytes");
    size_t data = s.numbers.stripe_len, lost = s.numbers.chunk_len;
    printf("%zu %zu %zu\n", call == REPAIR ? lost : data, call == REPAIR ? s.parts_len : data, call == REPAIR ? lost : s.len - data);
}
