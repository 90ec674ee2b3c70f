/* Reads a stripe of 4 data chunks, 512 bytes, gives it 2 parity chunks, loses one chunk and rebuilds it, loses two and recovers them, and
 * writes the six chunks in hexadecimal digits, a line each. Built at the repository's top, where the library is installed (library/Makefile), by
 *
 *     gcc $(pkg-config --cflags clay) examples/lost_chunk.c $(pkg-config --libs clay) -o lost_chunk */
#include <clay.h>
#include <stdio.h>
#include <stdlib.h>
#include <string.h>

enum { K = 4, M = 2, N = K + M, W = 16, LAYERS = 8, LEN = LAYERS * W, READ = LAYERS / M, PART = READ * W };

static uint8_t chunks[N * LEN], parts[(N - 1) * PART], copy[N * LEN];

/* Ends the program where a call doesn't end as it should. */
static void expect(uint32_t status, uint32_t wanted, const char *call) {
    if (status == wanted)
        return;
    fprintf(stderr, "%s: status %u in place of %u\n", call, (unsigned)status, (unsigned)wanted);
    exit(1);
}

static void expect_same(const uint8_t *bytes, const uint8_t *wanted, size_t len, const char *call) {
    expect(memcmp(bytes, wanted, len) == 0 ? CLAY_DONE : 255, CLAY_DONE, call);
}

static void check_numbers(void) {
    struct clay_numbers numbers;
    expect(clay_geometry(K, M, W, &numbers), CLAY_DONE, "clay_geometry");
    expect(numbers.chunks, N, "chunks");
    expect(numbers.rows * numbers.columns - numbers.virtual_nodes, N, "nodes with a chunk");
    expect(numbers.layers, LAYERS, "layers");
    expect(numbers.chunk_len, LEN, "chunk_len");
    expect(numbers.stripe_len, K * LEN, "stripe_len");
    expect(numbers.part_len, PART, "part_len");
}

/* One chunk is lost: half of each other one is enough. */
static void rebuild(uint32_t lost) {
    uint32_t layers[READ];
    uint8_t chunk[LEN], *part = parts;
    expect(clay_repair_layers(K, M, W, lost, layers, READ), CLAY_DONE, "clay_repair_layers");
    for (uint32_t c = 0; c < N; c++)
        for (uint32_t i = 0; c != lost && i < READ; i++, part += W)
            memcpy(part, chunks + c * LEN + layers[i] * W, W);
    expect(clay_rebuild(K, M, W, lost, parts, sizeof parts, chunk, sizeof chunk), CLAY_DONE, "clay_rebuild");
    expect_same(chunk, chunks + lost * LEN, LEN, "the rebuilt chunk");
}

/* Two chunks are lost: the other four are needed whole. */
static void recover(uint32_t one, uint32_t other) {
    uint8_t present[N];
    memset(present, 1, N);
    present[one] = present[other] = 0;
    memcpy(copy, chunks, sizeof chunks);
    memset(copy + one * LEN, 0, LEN);
    memset(copy + other * LEN, 0, LEN);
    expect(clay_recover(K, M, W, present, N, copy, sizeof copy), CLAY_DONE, "clay_recover");
    expect_same(copy, chunks, sizeof chunks, "the recovered chunks");
}

/* The same where each chunk stands apart: the four that are there are read, and the two are written to `copy`. */
static void recover_apart(uint32_t one, uint32_t other) {
    uint8_t present[N];
    struct clay_bytes there[N];
    struct clay_room missing[M];
    size_t count = 0, lost = 0;
    memset(copy, 0, sizeof copy);
    for (uint32_t c = 0; c < N; c++) {
        present[c] = c != one && c != other;
        if (present[c])
            there[count++] = (struct clay_bytes){chunks + c * LEN, LEN};
        else
            missing[lost++] = (struct clay_room){copy + c * LEN, LEN};
    }
    expect(clay_recover_chunks(K, M, W, present, N, there, count, missing, lost), CLAY_DONE, "clay_recover_chunks");
    expect_same(copy + one * LEN, chunks + one * LEN, LEN, "a recovered chunk");
    expect_same(copy + other * LEN, chunks + other * LEN, LEN, "the other one");
}

/* Wrong numbers and lengths are told, and nothing is written then. */
static void try_wrong_numbers(void) {
    uint8_t none[N] = {0}, all[N] = {1, 1, 1, 1, 1, 1};
    uint32_t layers[READ];
    struct clay_numbers numbers;
    memcpy(copy, chunks, sizeof chunks);
    expect(clay_geometry(K, 1, W, &numbers), CLAY_BAD_GEOMETRY, "one parity chunk");
    expect(clay_geometry(K, M, 65537, &numbers), CLAY_BAD_GEOMETRY, "a subchunk of 65537 bytes");
    expect(clay_parity(K, M, W, copy, K * LEN - 1, copy + K * LEN, M * LEN), CLAY_BAD_LENGTH, "a stripe that is short by a byte");
    expect(clay_parity(K, M, W, copy, K * LEN, copy + K * LEN, M * LEN - 1), CLAY_BAD_LENGTH, "room for a byte less");
    expect(clay_recover(K, M, W, none, N - 1, copy, sizeof copy), CLAY_BAD_LENGTH, "five marks");
    expect(clay_recover(K, M, W, all, N, copy, sizeof copy - LEN), CLAY_BAD_LENGTH, "five chunks");
    expect(clay_recover(K, M, W, none, N, copy, sizeof copy), CLAY_TOO_FEW, "six are missing");
    expect(clay_repair_layers(K, M, W, N, layers, READ), CLAY_BAD_CHUNK, "layers of chunk 6 of 6");
    expect(clay_repair_layers(K, M, W, 0, layers, READ - 1), CLAY_BAD_LENGTH, "room for a layer less");
    expect(clay_rebuild(K, M, W, N, parts, sizeof parts, copy, LEN), CLAY_BAD_CHUNK, "chunk 6 of 6");
    expect(clay_rebuild(K, M, W, 0, parts, sizeof parts - 1, copy, LEN), CLAY_BAD_LENGTH, "parts that are short by a byte");
    expect(clay_rebuild(K, M, W, 0, parts, sizeof parts, copy, LEN + 1), CLAY_BAD_LENGTH, "room for a byte more");
    expect_same(copy, chunks, sizeof chunks, "chunks after refused calls");
}

static void print_chunks(void) {
    for (size_t i = 0; i < sizeof chunks; i++)
        printf("%02x%s", chunks[i], (i + 1) % LEN == 0 ? "\n" : "");
}

int main(void) {
    if (fread(chunks, 1, K * LEN, stdin) != K * LEN) {
        fprintf(stderr, "the standard input has fewer than %d bytes\n", K * LEN);
        return 1;
    }
    check_numbers();
    expect(clay_parity(K, M, W, chunks, K * LEN, chunks + K * LEN, M * LEN), CLAY_DONE, "clay_parity");
    for (uint32_t lost = 0; lost < N; lost++)
        rebuild(lost);
    for (uint32_t one = 0; one < N; one++)
        for (uint32_t other = one + 1; other < N; other++) {
            recover(one, other);
            recover_apart(one, other);
        }
    try_wrong_numbers();
    print_chunks();
    return 0;
}
