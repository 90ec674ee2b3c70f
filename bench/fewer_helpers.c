/* The calls of the library for C with fewer helpers beside those where all other chunks help. bench/fewer builds and runs it.
 *
 *     fewer_helpers ROUNDS MILLISECONDS CODE..      where a CODE is K+M/D:W
 *
 * What is timed: the processor time of this thread, by slices of time that alternate between the two codes, several rounds of them. Of a
 * slice the median of its calls counts. The code with all others has the width that brings its stripe nearest in length, and times are
 * those of a byte: of the stripe for encoding, of the lost chunk for a repair. A ratio is that of one round, how many times as long the
 * code with fewer helpers takes; the median of all rounds is told, with the least and the greatest. Each repair is compared once. */
#define _GNU_SOURCE
#include <clay.h>
#include <malloc.h>
#include <stdio.h>
#include <stdlib.h>
#include <string.h>
#include <time.h>

enum { MOST = 64, CALLS = 1 << 14 };

/* A code, its chunks one behind another, and the parts of the first helpers of chunk 0. d is 0 where all others help. */
struct code {
    uint32_t k, m, d, w;
    struct clay_numbers numbers;
    uint8_t helpers[MOST], *chunks, *parts, *rebuilt;
    size_t parts_len;
};

static void expect(int holds, const char *what) {
    if (holds)
        return;
    fprintf(stderr, "fewer_helpers: %s\n", what);
    exit(1);
}

static void *made(size_t len) {
    void *bytes = malloc(len);
    expect(bytes != NULL, "out of memory");
    return bytes;
}

static uint32_t numbers(struct code *code) {
    return code->d ? clay_geometry_with_helpers(code->k, code->m, code->d, code->w, &code->numbers)
                   : clay_geometry(code->k, code->m, code->w, &code->numbers);
}

static void encode(struct code *code) {
    size_t data = code->numbers.stripe_len, parity = (size_t)code->m * code->numbers.chunk_len;
    expect((code->d ? clay_parity_with_helpers(code->k, code->m, code->d, code->w, code->chunks, data, code->chunks + data, parity)
                    : clay_parity(code->k, code->m, code->w, code->chunks, data, code->chunks + data, parity)) == CLAY_DONE, "an encoding");
}

static void repair(struct code *code) {
    size_t len = code->numbers.chunk_len;
    expect((code->d ? clay_rebuild_with_helpers(code->k, code->m, code->d, code->w, 0, code->helpers, code->numbers.chunks, code->parts,
                                                code->parts_len, code->rebuilt, len)
                    : clay_rebuild(code->k, code->m, code->w, 0, code->parts, code->parts_len, code->rebuilt, len)) == CLAY_DONE, "a repair");
}

/* Chunk 0 is of the first column, so the chunks behind it are its column's and then others. */
static void begin(struct code *code) {
    expect(numbers(code) == CLAY_DONE, "no code has these numbers");
    struct clay_numbers *g = &code->numbers;
    size_t len = g->chunk_len;
    uint32_t many = code->d ? code->d : g->chunks - 1, read = g->part_len / code->w, layers[1024];
    code->chunks = made(g->chunks * len);
    for (size_t i = 0; i < g->stripe_len; i++)
        code->chunks[i] = (uint8_t)(rand() >> 8);
    encode(code);
    expect((code->d ? clay_repair_layers_with_helpers(code->k, code->m, code->d, code->w, 0, layers, read)
                    : clay_repair_layers(code->k, code->m, code->w, 0, layers, read)) == CLAY_DONE, "the layers of a repair");
    code->parts_len = (size_t)many * g->part_len;
    code->parts = made(code->parts_len);
    code->rebuilt = made(len);
    uint8_t *part = code->parts;
    memset(code->helpers, 0, sizeof code->helpers);
    for (uint32_t c = 1; c <= many; c++) {
        code->helpers[c] = 1;
        for (uint32_t i = 0; i < read; i++, part += code->w)
            memcpy(part, code->chunks + c * len + (size_t)layers[i] * code->w, code->w);
    }
    repair(code);
    expect(memcmp(code->rebuilt, code->chunks, len) == 0, "a repair is wrong");
}

static void end(struct code *code) {
    free(code->chunks);
    free(code->parts);
    free(code->rebuilt);
}

/* The code with all others whose stripe has the nearest length. */
static struct code plain_of(const struct code *code) {
    struct code plain = {.k = code->k, .m = code->m, .w = 1};
    expect(numbers(&plain) == CLAY_DONE, "no code has these numbers");
    plain.w = (code->numbers.chunk_len + plain.numbers.layers / 2) / plain.numbers.layers;
    plain.w = plain.w ? plain.w : 1;
    while (plain.w > 1 && numbers(&plain) != CLAY_DONE)
        plain.w--;
    return plain;
}

static double thread_seconds(void) {
    struct timespec time;
    clock_gettime(CLOCK_THREAD_CPUTIME_ID, &time);
    return time.tv_sec + time.tv_nsec * 1e-9;
}

static int rising(const void *left, const void *right) {
    double a = *(const double *)left, b = *(const double *)right;
    return (a > b) - (a < b);
}

static double median(double *values, int count) {
    qsort(values, count, sizeof *values, rising);
    return count % 2 ? values[count / 2] : (values[count / 2 - 1] + values[count / 2]) / 2;
}

static double seconds_of_call(void (*call)(struct code *), struct code *code, double slice) {
    static double seconds[CALLS];
    int calls = 0;
    double begun = thread_seconds();
    do {
        double before = thread_seconds();
        call(code);
        seconds[calls++] = thread_seconds() - before;
    } while (thread_seconds() - begun < slice && calls < CALLS);
    return median(seconds, calls);
}

static void compare(const char *what, void (*call)(struct code *), struct code *fewer, struct code *plain, double bytes, double plain_bytes, int rounds, double slice) {
    double *ours = made(rounds * sizeof *ours), *theirs = made(rounds * sizeof *theirs), *ratios = made(rounds * sizeof *ratios);
    for (int round = 0; round < rounds; round++) {
        ours[round] = seconds_of_call(call, fewer, slice) / bytes;
        theirs[round] = seconds_of_call(call, plain, slice) / plain_bytes;
        ratios[round] = ours[round] / theirs[round];
    }
    double middle = median(ratios, rounds);
    printf("  %-7s %7.3f GB/s with fewer helpers, %7.3f with all others: %.2f times as long (%.2f..%.2f)\n", what, 1e-9 / median(ours, rounds),
           1e-9 / median(theirs, rounds), middle, ratios[0], ratios[rounds - 1]);
    fflush(stdout);
    free(ours);
    free(theirs);
    free(ratios);
}

int main(int count, char **words) {
    expect(count > 3, "too few words");
    int rounds = atoi(words[1]);
    double slice = atof(words[2]) / 1000;
    expect(rounds > 0, "too few rounds");
    /* freed memory stays with the process, for both codes alike */
    mallopt(M_MMAP_THRESHOLD, 1 << 30);
    mallopt(M_TRIM_THRESHOLD, INT32_MAX);
    mallopt(M_TOP_PAD, 64 << 20);
    for (int i = 3; i < count; i++) {
        struct code fewer;
        expect(sscanf(words[i], "%u+%u/%u:%u", &fewer.k, &fewer.m, &fewer.d, &fewer.w) == 4, "no code");
        begin(&fewer);
        struct code plain = plain_of(&fewer);
        begin(&plain);
        printf("%u+%u, %u helpers, subchunks of %u bytes and of %u, a stripe of %u KiB\n", fewer.k, fewer.m, fewer.d, fewer.w, plain.w,
               fewer.numbers.stripe_len / 1024);
        compare("encode", encode, &fewer, &plain, fewer.numbers.stripe_len, plain.numbers.stripe_len, rounds, slice);
        compare("repair", repair, &fewer, &plain, fewer.numbers.chunk_len, plain.numbers.chunk_len, rounds, slice);
        end(&fewer);
        end(&plain);
    }
    return 0;
}
