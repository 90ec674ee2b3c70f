/* Reads of a part of a lost chunk, by the library for C. bench/degraded builds and runs it.
 *
 *     degraded_reads ROUNDS MILLISECONDS CODE..      where a CODE is K+M:W
 *
 * What is timed: the processor time of this thread in clay_read_lost for one layer, for a quarter of the layers and for all, and in
 * clay_rebuild for the whole chunk, by slices of time that alternate between them, several rounds of them. A slice goes over all data chunks
 * and starts in turn. Printed are megabytes (millions of bytes) of the lost chunk a second: the median of all rounds, with the least and the
 * greatest. What is read is at hand in memory, as it comes from the disks. Each read is compared once. */
#define _GNU_SOURCE
#include <clay.h>
#include <stdio.h>
#include <stdlib.h>
#include <string.h>
#include <time.h>

enum { READS = 4, MOST_ROUNDS = 99 };

/* A code, and a codeword's chunks one behind another. */
struct code {
    uint32_t k, m, w;
    struct clay_numbers numbers;
    uint8_t *chunks;
};

/* A read of some layers of a lost chunk, or where there are none a rebuild, with its bytes at hand. */
struct request {
    uint32_t lost, from, to;
    uint8_t *pieces;
    size_t len;
};

static void expect(int holds, const char *what) {
    if (holds)
        return;
    fprintf(stderr, "degraded_reads: %s\n", what);
    exit(1);
}

static void *made(size_t len) {
    void *bytes = malloc(len);
    expect(bytes != NULL, "out of memory");
    return bytes;
}

static double now(void) {
    struct timespec time;
    clock_gettime(CLOCK_THREAD_CPUTIME_ID, &time);
    return time.tv_sec + time.tv_nsec / 1e9;
}

static void begin(struct code *code) {
    expect(clay_geometry(code->k, code->m, code->w, &code->numbers) == CLAY_DONE, "no code has these numbers");
    size_t data = code->numbers.stripe_len, parity = (size_t)code->m * code->numbers.chunk_len;
    code->chunks = made(data + parity);
    for (size_t i = 0; i < data; i++)
        code->chunks[i] = (uint8_t)(i * 167 + (i >> 8) * 13);
    expect(clay_parity(code->k, code->m, code->w, code->chunks, data, code->chunks + data, parity) == CLAY_DONE, "an encoding");
}

static const uint8_t *subchunk(const struct code *code, uint32_t chunk, uint32_t layer) {
    return code->chunks + (size_t)chunk * code->numbers.chunk_len + (size_t)layer * code->w;
}

/* The subchunks that a read takes. */
static struct request read_of(const struct code *code, uint32_t lost, uint32_t from, uint32_t to) {
    uint32_t count;
    expect(clay_lost_count(code->k, code->m, code->w, lost, from, to, &count) == CLAY_DONE, "a count");
    struct clay_piece *list = made(count * sizeof *list);
    expect(clay_lost_pieces(code->k, code->m, code->w, lost, from, to, list, count) == CLAY_DONE, "a list of pieces");
    struct request request = {lost, from, to, made((size_t)count * code->w), (size_t)count * code->w};
    for (uint32_t i = 0; i < count; i++)
        memcpy(request.pieces + (size_t)i * code->w, subchunk(code, list[i].chunk, list[i].layer), code->w);
    free(list);
    return request;
}

/* The parts that a rebuild takes. */
static struct request rebuild_of(const struct code *code, uint32_t lost) {
    uint32_t count = code->numbers.layers / code->m, *layers = made(count * sizeof *layers);
    expect(clay_repair_layers(code->k, code->m, code->w, lost, layers, count) == CLAY_DONE, "the repair layers");
    struct request request = {lost, 0, 0, made((size_t)(code->numbers.chunks - 1) * code->numbers.part_len), 0};
    for (uint32_t c = 0; c < code->numbers.chunks; c++)
        for (uint32_t i = 0; c != lost && i < count; i++, request.len += code->w)
            memcpy(request.pieces + request.len, subchunk(code, c, layers[i]), code->w);
    free(layers);
    return request;
}

static size_t answer(const struct code *code, const struct request *request, uint8_t *out) {
    if (request->to == 0) {
        expect(clay_rebuild(code->k, code->m, code->w, request->lost, request->pieces, request->len, out, code->numbers.chunk_len) == CLAY_DONE, "a rebuild");
        return code->numbers.chunk_len;
    }
    size_t len = (size_t)(request->to - request->from) * code->w;
    expect(clay_read_lost(code->k, code->m, code->w, request->lost, request->from, request->to, request->pieces, request->len, out, len) == CLAY_DONE, "a read");
    return len;
}

/* Millions of bytes a second in one slice. */
static double rate(const struct code *code, const struct request *requests, size_t count, double slice, uint8_t *out) {
    double start = now(), spent = 0;
    size_t bytes = 0;
    for (size_t i = 0; spent < slice; i = (i + 1) % count, spent = now() - start)
        bytes += answer(code, &requests[i], out);
    return bytes / spent / 1e6;
}

static int by_size(const void *a, const void *b) {
    return (*(const double *)a > *(const double *)b) - (*(const double *)a < *(const double *)b);
}

static void measure(struct code *code, int rounds, double slice) {
    begin(code);
    uint32_t layers = code->numbers.layers, lengths[READS] = {1, layers / 4, layers, 0};
    struct request *requests[READS];
    size_t counts[READS];
    uint8_t *out = made(code->numbers.chunk_len);
    for (int r = 0; r < READS; r++) {
        uint32_t starts = lengths[r] ? (layers / lengths[r] < 8 ? layers / lengths[r] : 8) : 1;
        requests[r] = made(code->k * starts * sizeof **requests);
        counts[r] = 0;
        for (uint32_t lost = 0; lost < code->k; lost++)
            for (uint32_t s = 0; s < starts; s++) {
                uint32_t from = lengths[r] ? (layers / lengths[r]) * s / starts * lengths[r] : 0;
                struct request request = lengths[r] ? read_of(code, lost, from, from + lengths[r]) : rebuild_of(code, lost);
                size_t len = answer(code, &request, out);
                expect(memcmp(out, subchunk(code, lost, from), len) == 0, "other bytes");
                requests[r][counts[r]++] = request;
            }
    }
    static double rates[READS][MOST_ROUNDS];
    for (int round = 0; round < rounds; round++)
        for (int r = 0; r < READS; r++)
            rates[r][round] = rate(code, requests[r], counts[r], slice, out);
    printf("%u+%u:%u\n", code->k, code->m, code->w);
    for (int r = 0; r < READS; r++) {
        qsort(rates[r], rounds, sizeof **rates, by_size);
        char name[64];
        snprintf(name, sizeof name, lengths[r] ? "clay_read_lost, %u of %u layers" : "clay_rebuild", lengths[r], layers);
        printf("    %-32s %7.0f MB/s (%.0f..%.0f)\n", name, rates[r][rounds / 2], rates[r][0], rates[r][rounds - 1]);
    }
}

int main(int count, char **words) {
    expect(count > 3, "usage: degraded_reads ROUNDS MILLISECONDS CODE..");
    int rounds = atoi(words[1]);
    expect(rounds > 0 && rounds <= MOST_ROUNDS, "1 to 99 rounds");
    for (int i = 3; i < count; i++) {
        struct code code;
        expect(sscanf(words[i], "%u+%u:%u", &code.k, &code.m, &code.w) == 3, "a code is K+M:W");
        measure(&code, rounds, atoi(words[2]) / 1e3);
    }
}
