/* Calls of the library for C with right and wrong numbers and lengths, some with memory refused, in several threads at once: each ends as it
 * should, writes nothing where it isn't CLAY_DONE, and gives what the same call gave alone. checks/library builds and runs it.
 *
 *     calls THREADS ROUNDS START      ends with 0 where all calls ended so */
#include <clay.h>
#include <pthread.h>
#include <stdio.h>
#include <stdlib.h>
#include <string.h>

enum { MOST = 64, LIMIT = 1 << 15 };

static const struct { uint32_t k, m, w; } CODES[] = {{2, 2, 1}, {4, 2, 16}, {3, 2, 7}, {4, 3, 5}, {8, 4, 4}, {6, 3, 16}, {2, 8, 3}};

static int rounds, failed;
static uint64_t start;

/* A buffer of just so many bytes, so that a tool that watches memory sees each byte past it. */
static void *made(size_t len) {
    void *bytes = malloc(len ? len : 1);
    if (!bytes)
        exit(2);
    return bytes;
}

static uint64_t drawn(uint64_t *state) {
    *state += 0x9e3779b97f4a7c15;
    uint64_t x = (*state ^ *state >> 30) * 0xbf58476d1ce4e5b9;
    x = (x ^ x >> 27) * 0x94d049bb133111eb;
    return x ^ x >> 31;
}

static void hold(int is_right, const char *what, uint32_t k, uint32_t m, uint32_t w, uint32_t status) {
    if (is_right)
        return;
    __atomic_store_n(&failed, 1, __ATOMIC_RELAXED);
    fprintf(stderr, "%s of %u %u %u: status %u\n", what, k, m, w, status);
}

/* Whether all bytes are the mark that was written before a call. */
static int is_marked(const uint8_t *bytes, size_t len) {
    for (size_t i = 0; i < len; i++)
        if (bytes[i] != 0xa5)
            return 0;
    return 1;
}

/* Numbers that are a code's, or near one's: none outside the limits may pass, and each within them does. */
static void numbers(uint64_t *state) {
    uint32_t k = drawn(state) % 26, m = drawn(state) % 11, w = drawn(state) % 3 ? drawn(state) % 70000 : drawn(state) % 9;
    uint64_t layers = 1, columns = m ? (k + m + m - 1) / m : 0;
    for (uint64_t y = 0; y < columns && layers <= 1024; y++)
        layers *= m;
    int is_code = k >= 2 && m >= 2 && m <= 8 && w >= 1 && w <= 65536 && layers <= 1024 && layers * w <= 1048576;
    struct clay_numbers told;
    memset(&told, 0xa5, sizeof told);
    uint32_t status = clay_geometry(k, m, w, &told);
    hold(status == (is_code ? CLAY_DONE : CLAY_BAD_GEOMETRY), "clay_geometry", k, m, w, status);
    hold(is_code ? told.layers == layers && told.chunk_len == layers * w : is_marked((uint8_t *)&told, sizeof told), "its numbers", k, m, w, status);
}

/* A length that is right, or one beside it, or none. */
static size_t beside(uint64_t *state, size_t len) {
    switch (drawn(state) % 6) {
    case 0: return len - 1;
    case 1: return len + 1;
    case 2: return 0;
    default: return len;
    }
}

/* Copies of pieces that stand one behind another, each in a buffer of its own; one of them may be a byte too long. */
static struct clay_bytes *copies(uint64_t *state, const uint8_t *bytes, size_t count, size_t len, int *is_right) {
    struct clay_bytes *list = made(count * sizeof *list);
    size_t odd = drawn(state) % 4 || count == 0 ? count : drawn(state) % count;
    for (size_t i = 0; i < count; i++) {
        uint8_t *copy = made(len + 1);
        memcpy(copy, bytes + i * len, len);
        list[i] = (struct clay_bytes){copy, len + (i == odd)};
    }
    *is_right = *is_right && odd == count;
    return list;
}

static void free_copies(struct clay_bytes *list, size_t count) {
    for (size_t i = 0; i < count; i++)
        free((void *)list[i].bytes);
    free(list);
}

/* The missing chunks, the parity chunks and a lost one, from buffers that stand apart, with counts and lengths that may be wrong. */
static void apart(uint64_t *state, const struct clay_numbers *g, uint32_t k, uint32_t m, uint32_t w, const uint8_t *word, const uint8_t *present, uint32_t gone, const uint8_t *parts) {
    size_t len = g->chunk_len, there = 0, lost = 0;
    uint8_t *left = made(g->chunks * len);
    struct clay_room rooms[MOST];
    uint32_t numbers[MOST];
    for (uint32_t c = 0; c < g->chunks; c++) {
        if (present[c]) {
            memcpy(left + there++ * len, word + c * len, len);
            continue;
        }
        numbers[lost] = c;
        rooms[lost] = (struct clay_room){made(len + 1), len};
        memset(rooms[lost++].bytes, 0xa5, len + 1);
    }
    int is_right = 1;
    struct clay_bytes *list = copies(state, left, there, len, &is_right);
    size_t given = there > 0 && drawn(state) % 4 == 0 ? there - 1 : there;
    if (lost > 0 && drawn(state) % 8 == 0)
        rooms[drawn(state) % lost].len++, is_right = 0;
    is_right = is_right && given == there;
    uint32_t status = clay_recover_chunks(k, m, w, present, g->chunks, list, given, rooms, lost);
    hold(status == (!is_right ? CLAY_BAD_LENGTH : lost > m ? CLAY_TOO_FEW : CLAY_DONE), "clay_recover_chunks", k, m, w, status);
    for (size_t i = 0; i < lost; i++) {
        hold(status == CLAY_DONE ? memcmp(rooms[i].bytes, word + numbers[i] * len, len) == 0 : is_marked(rooms[i].bytes, len), "what clay_recover_chunks wrote", k, m, w, status);
        free(rooms[i].bytes);
    }
    free_copies(list, there);
    free(left);

    is_right = 1;
    list = copies(state, word, k, len, &is_right);
    for (uint32_t i = 0; i < m; i++) {
        rooms[i] = (struct clay_room){made(len), len};
        memset(rooms[i].bytes, 0xa5, len);
    }
    given = drawn(state) % 4 ? m : m - 1;
    is_right = is_right && given == m;
    status = clay_encode_chunks(k, m, w, list, k, rooms, given);
    hold(status == (is_right ? CLAY_DONE : CLAY_BAD_LENGTH), "clay_encode_chunks", k, m, w, status);
    for (uint32_t i = 0; i < m; i++) {
        hold(status == CLAY_DONE ? memcmp(rooms[i].bytes, word + (k + i) * len, len) == 0 : is_marked(rooms[i].bytes, len), "what clay_encode_chunks wrote", k, m, w, status);
        free(rooms[i].bytes);
    }
    free_copies(list, k);

    size_t others = g->chunks - 1;
    uint8_t *chunk = made(len);
    memset(chunk, 0xa5, len);
    is_right = 1;
    list = copies(state, parts, others, g->part_len, &is_right);
    given = beside(state, others);
    if (given > others)
        given = others;
    is_right = is_right && given == others;
    status = clay_rebuild_chunks(k, m, w, gone, list, given, chunk, len);
    hold(status == (gone >= g->chunks ? CLAY_BAD_CHUNK : is_right ? CLAY_DONE : CLAY_BAD_LENGTH), "clay_rebuild_chunks", k, m, w, status);
    hold(status == CLAY_DONE ? memcmp(chunk, word + gone * len, len) == 0 : is_marked(chunk, len), "what clay_rebuild_chunks wrote", k, m, w, status);
    free_copies(list, others);
    free(chunk);
}

/* A stripe's parity chunks; then one chunk rebuilt and up to m, or more, recovered, with lengths that may be wrong. */
static void chunks(uint64_t *state) {
    uint32_t at = drawn(state) % (sizeof CODES / sizeof *CODES), k = CODES[at].k, m = CODES[at].m, w = CODES[at].w;
    struct clay_numbers g;
    hold(clay_geometry(k, m, w, &g) == CLAY_DONE && g.stripe_len + m * g.chunk_len <= LIMIT, "clay_geometry", k, m, w, 0);
    size_t len = g.chunk_len, all = g.chunks * len;
    uint8_t *word = made(all), *out = made(m * len + 1);
    for (size_t i = 0; i < g.stripe_len; i++)
        word[i] = (uint8_t)drawn(state);
    memset(out, 0xa5, m * len + 1);
    size_t given = beside(state, g.stripe_len), wanted = beside(state, m * len);
    uint8_t *source = made(given);
    memset(source, 0, given);
    memcpy(source, word, given < g.stripe_len ? given : g.stripe_len);
    uint32_t status = clay_parity(k, m, w, source, given, out, wanted);
    int is_right = given == g.stripe_len && wanted == m * len;
    hold(status == (is_right ? CLAY_DONE : CLAY_BAD_LENGTH), "clay_parity", k, m, w, status);
    hold(is_right || is_marked(out, m * len + 1), "what clay_parity wrote", k, m, w, status);
    hold(clay_parity(k, m, w, word, g.stripe_len, word + g.stripe_len, m * len) == CLAY_DONE, "clay_parity", k, m, w, status);
    hold(!is_right || memcmp(out, word + g.stripe_len, m * len) == 0, "parity chunks", k, m, w, status);
    free(source);
    free(out);

    uint8_t present[MOST], *have = made(all);
    memcpy(have, word, all);
    uint32_t lost = 0;
    for (uint32_t c = 0; c < g.chunks; c++) {
        present[c] = drawn(state) % 4 != 0;
        lost += !present[c];
        if (!present[c])
            memset(have + c * len, 0xa5, len);
    }
    uint8_t *before = made(all);
    memcpy(before, have, all);
    size_t flags = beside(state, g.chunks);
    status = clay_recover(k, m, w, present, flags > MOST ? 0 : flags, have, all);
    hold(status == (flags != g.chunks ? CLAY_BAD_LENGTH : lost > m ? CLAY_TOO_FEW : CLAY_DONE), "clay_recover", k, m, w, status);
    hold(memcmp(have, status == CLAY_DONE ? word : before, all) == 0, "what clay_recover wrote", k, m, w, status);

    uint32_t gone = drawn(state) % (g.chunks + 1), read = g.layers / m, *layers = made(read * sizeof *layers);
    status = clay_repair_layers(k, m, w, gone, layers, read);
    hold(status == (gone < g.chunks ? CLAY_DONE : CLAY_BAD_CHUNK), "clay_repair_layers", k, m, w, status);
    uint8_t *parts = made((g.chunks - 1) * g.part_len), *part = parts, *chunk = made(len);
    for (uint32_t c = 0; c < g.chunks && gone < g.chunks; c++)
        for (uint32_t i = 0; c != gone && i < read; i++, part += w)
            memcpy(part, word + c * len + (size_t)layers[i] * w, w);
    memset(chunk, 0xa5, len);
    size_t parts_len = gone < g.chunks ? beside(state, (g.chunks - 1) * g.part_len) : 0;
    uint8_t *exact = made(parts_len);
    memset(exact, 0, parts_len);
    memcpy(exact, parts, parts_len < (g.chunks - 1) * g.part_len ? parts_len : (g.chunks - 1) * g.part_len);
    status = clay_rebuild(k, m, w, gone, exact, parts_len, chunk, len);
    is_right = parts_len == (g.chunks - 1) * g.part_len;
    hold(status == (gone >= g.chunks ? CLAY_BAD_CHUNK : is_right ? CLAY_DONE : CLAY_BAD_LENGTH), "clay_rebuild", k, m, w, status);
    hold(status == CLAY_DONE ? memcmp(chunk, word + gone * len, len) == 0 : is_marked(chunk, len), "what clay_rebuild wrote", k, m, w, status);
    if (gone >= g.chunks)
        memset(parts, 0, (g.chunks - 1) * g.part_len);
    apart(state, &g, k, m, w, word, present, gone, parts);
    free(exact);
    free(parts);
    free(chunk);
    free(layers);
    free(before);
    free(have);
    free(word);
}

static uint32_t column_of(const struct clay_numbers *g, uint32_t k, uint32_t c) {
    return (c < k ? c : c + g->virtual_nodes) / g->rows;
}

/* Helpers of a rebuild: the others of the lost chunk's column, and more up to so many. */
static void mark(uint64_t *state, const struct clay_numbers *g, uint32_t k, uint32_t lost, uint32_t left, uint8_t *helpers) {
    for (uint32_t c = 0; c < g->chunks; c++)
        if (c != lost && column_of(g, k, c) == column_of(g, k, lost))
            helpers[c] = 1, left--;
    while (left > 0) {
        uint32_t c = drawn(state) % g->chunks;
        if (c != lost && !helpers[c])
            helpers[c] = 1 + drawn(state) % 255, left--;
    }
}

/* Up to m chunks, or more, recovered with lengths that may be wrong, as clay_recover does it where all others help. Where just m are
 * missing, any bytes of the others are those of a codeword. */
static void recovered(uint64_t *state, const struct clay_numbers *g, uint32_t k, uint32_t m, uint32_t d, uint32_t w, const uint8_t *word) {
    size_t len = g->chunk_len, all = g->chunks * len, given = beside(state, all), flags = beside(state, g->chunks);
    uint8_t present[MOST], *have = made(given), *whole = made(all), *before = made(given);
    memcpy(whole, word, all);
    uint32_t lost = 0;
    for (uint32_t c = 0; c < g->chunks; c++) {
        present[c] = drawn(state) % 4 ? 1 + drawn(state) % 255 : 0;
        lost += !present[c];
        if (!present[c])
            memset(whole + c * len, 0xa5, len);
    }
    memset(have, 0, given);
    memcpy(have, whole, given < all ? given : all);
    memcpy(before, have, given);
    uint32_t status = clay_recover_with_helpers(k, m, d, w, present, flags > MOST ? 0 : flags, have, given);
    int is_right = flags == g->chunks && given == all;
    hold(status == (!is_right ? CLAY_BAD_LENGTH : lost > m ? CLAY_TOO_FEW : CLAY_DONE), "clay_recover_with_helpers", k, m, d, status);
    hold(memcmp(have, status == CLAY_DONE ? word : before, given) == 0, "what clay_recover_with_helpers wrote", k, m, d, status);
    if (d == k + m - 1 && lost <= m) {
        hold(clay_recover(k, m, w, present, g->chunks, whole, all) == CLAY_DONE, "clay_recover", k, m, w, 0);
        hold(status != CLAY_DONE || memcmp(have, whole, all) == 0, "chunks with all others", k, m, d, status);
    }
    if (lost == m) {
        uint8_t *parity = made(m * len);
        for (size_t i = 0; i < all; i++)
            whole[i] = (uint8_t)drawn(state);
        hold(clay_recover_with_helpers(k, m, d, w, present, g->chunks, whole, all) == CLAY_DONE, "clay_recover_with_helpers", k, m, d, 0);
        hold(clay_parity_with_helpers(k, m, d, w, whole, k * len, parity, m * len) == CLAY_DONE, "clay_parity_with_helpers", k, m, d, 0);
        hold(memcmp(parity, whole + k * len, m * len) == 0, "chunks of any others", k, m, d, 0);
        free(parity);
    }
    free(before);
    free(whole);
    free(have);
}

/* A stripe's parity chunks of a code with fewer helpers, which are those of clay_parity where all others help; then some chunks recovered,
 * and one rebuilt, by helpers and with lengths that may be wrong. */
static void fewer(uint64_t *state) {
    uint32_t at = drawn(state) % (sizeof CODES / sizeof *CODES), k = CODES[at].k, m = CODES[at].m, w = CODES[at].w;
    uint32_t d = k + drawn(state) % (m + 1);
    struct clay_numbers g, plain;
    memset(&g, 0xa5, sizeof g);
    uint32_t status = clay_geometry_with_helpers(k, m, d, w, &g);
    int is_code = k < d && d < k + m;
    hold(status == (is_code ? CLAY_DONE : CLAY_BAD_GEOMETRY), "clay_geometry_with_helpers", k, m, d, status);
    if (!is_code) {
        hold(is_marked((uint8_t *)&g, sizeof g), "its numbers", k, m, d, status);
        return;
    }
    size_t len = g.chunk_len, all = g.chunks * len;
    uint8_t *word = made(all), *out = made(m * len);
    for (size_t i = 0; i < g.stripe_len; i++)
        word[i] = (uint8_t)drawn(state);
    size_t given = beside(state, g.stripe_len);
    uint8_t *source = made(given);
    memset(source, 0, given);
    memset(out, 0xa5, m * len);
    status = clay_parity_with_helpers(k, m, d, w, source, given, out, m * len);
    hold(status == (given == g.stripe_len ? CLAY_DONE : CLAY_BAD_LENGTH), "clay_parity_with_helpers", k, m, d, status);
    hold(status == CLAY_DONE || is_marked(out, m * len), "what clay_parity_with_helpers wrote", k, m, d, status);
    free(source);
    status = clay_parity_with_helpers(k, m, d, w, word, g.stripe_len, word + g.stripe_len, m * len);
    hold(status == CLAY_DONE, "clay_parity_with_helpers", k, m, d, status);
    if (d == k + m - 1) {
        hold(clay_geometry(k, m, w, &plain) == CLAY_DONE && memcmp(&plain, &g, sizeof g) == 0, "the numbers with all others", k, m, d, 0);
        hold(clay_parity(k, m, w, word, g.stripe_len, out, m * len) == CLAY_DONE, "clay_parity", k, m, w, 0);
        hold(memcmp(out, word + g.stripe_len, m * len) == 0, "parity chunks with all others", k, m, d, 0);
    }
    free(out);
    recovered(state, &g, k, m, d, w, word);

    uint32_t gone = drawn(state) % (g.chunks + 1), read = g.layers / g.rows, *layers = made(read * sizeof *layers);
    size_t room = beside(state, read);
    status = clay_repair_layers_with_helpers(k, m, d, w, gone, layers, room > read ? 0 : room);
    hold(status == (gone >= g.chunks ? CLAY_BAD_CHUNK : room == read ? CLAY_DONE : CLAY_BAD_LENGTH), "clay_repair_layers_with_helpers", k, m, d, status);
    status = clay_repair_layers_with_helpers(k, m, d, w, gone, layers, read);
    hold(status == (gone < g.chunks ? CLAY_DONE : CLAY_BAD_CHUNK), "clay_repair_layers_with_helpers", k, m, d, status);
    uint8_t helpers[MOST] = {0}, *parts = made(d * g.part_len), *part = parts, *chunk = made(len);
    if (gone < g.chunks)
        mark(state, &g, k, gone, d, helpers);
    for (uint32_t c = 0; c < g.chunks && gone < g.chunks; c++)
        for (uint32_t i = 0; helpers[c] && i < read; i++, part += w)
            memcpy(part, word + c * len + (size_t)layers[i] * w, w);
    /* a helper too few or too many */
    int is_wrong = gone < g.chunks && drawn(state) % 4 == 0;
    uint8_t marks[MOST];
    memcpy(marks, helpers, sizeof marks);
    if (is_wrong) {
        uint32_t c = drawn(state) % g.chunks;
        marks[c] = !marks[c];
    }
    memset(chunk, 0xa5, len);
    size_t marked = beside(state, g.chunks), parts_len = beside(state, d * g.part_len);
    int is_right = marked == g.chunks && parts_len == d * g.part_len;
    uint8_t *exact = made(parts_len);
    memset(exact, 0, parts_len);
    memcpy(exact, parts, parts_len < d * g.part_len ? parts_len : d * g.part_len);
    status = clay_rebuild_with_helpers(k, m, d, w, gone, marks, marked > MOST ? 0 : marked, exact, parts_len, chunk, len);
    hold(status == (gone >= g.chunks ? CLAY_BAD_CHUNK : !is_right ? CLAY_BAD_LENGTH : is_wrong ? CLAY_BAD_HELPERS : CLAY_DONE), "clay_rebuild_with_helpers", k, m, d, status);
    hold(status == CLAY_DONE ? memcmp(chunk, word + gone * len, len) == 0 : is_marked(chunk, len), "what clay_rebuild_with_helpers wrote", k, m, d, status);
    free(exact);
    free(parts);
    free(chunk);
    free(layers);
    free(word);
}

/* The same where it may be none: at most one above. */
static size_t around(uint64_t *state, size_t len) {
    return len == 0 ? drawn(state) % 2 : beside(state, len);
}

/* A code, its numbers, and the chunks of a stripe one behind another. */
struct stripe {
    uint32_t k, m, w;
    struct clay_numbers g;
    uint8_t *word;
};

static struct stripe drawn_stripe(uint64_t *state) {
    uint32_t at = drawn(state) % (sizeof CODES / sizeof *CODES), k = CODES[at].k, m = CODES[at].m, w = CODES[at].w;
    struct stripe it = {k, m, w, {0}, NULL};
    hold(clay_geometry(k, m, w, &it.g) == CLAY_DONE, "clay_geometry", k, m, w, 0);
    size_t len = it.g.chunk_len;
    it.word = made(it.g.chunks * len);
    for (size_t i = 0; i < it.g.stripe_len; i++)
        it.word[i] = (uint8_t)drawn(state);
    hold(clay_parity(k, m, w, it.word, it.g.stripe_len, it.word + it.g.stripe_len, m * len) == CLAY_DONE, "clay_parity", k, m, w, 0);
    return it;
}

/* Some layers of a lost chunk, from the subchunks that they take: layers, lengths and the chunk may be wrong. */
static void degraded(uint64_t *state) {
    struct stripe it = drawn_stripe(state);
    uint32_t k = it.k, m = it.m, w = it.w;
    struct clay_numbers g = it.g;
    size_t len = g.chunk_len;
    uint8_t *word = it.word;
    uint32_t lost = drawn(state) % (g.chunks + 1), from = drawn(state) % g.layers, to = drawn(state) % 2 ? from + 1 : drawn(state) % (g.layers + 2);
    uint32_t wanted = lost >= g.chunks ? CLAY_BAD_CHUNK : from > to || to > g.layers ? CLAY_BAD_LAYER : CLAY_DONE, count = 0xa5a5a5a5;
    uint32_t status = clay_lost_count(k, m, w, lost, from, to, &count);
    hold(status == wanted, "clay_lost_count", k, m, w, status);
    hold(status != CLAY_DONE ? is_marked((uint8_t *)&count, sizeof count) : count <= (g.chunks - 1) * (g.layers / m), "its count", k, m, w, status);
    if (to == from + 1 && g.virtual_nodes == 0 && status == CLAY_DONE)
        hold(count == 2 * k - g.columns + 1, "the count of one layer", k, m, w, status);
    size_t pieces = status == CLAY_DONE ? count : 1, room = around(state, pieces), read = around(state, pieces * w);
    size_t width = (size_t)w * (wanted == CLAY_DONE ? to - from : 1), given = around(state, width);

    struct clay_piece *list = made((pieces + 1) * sizeof *list);
    memset(list, 0xa5, (pieces + 1) * sizeof *list);
    status = clay_lost_pieces(k, m, w, lost, from, to, list, room);
    hold(status == (wanted != CLAY_DONE ? wanted : room != pieces ? CLAY_BAD_LENGTH : CLAY_DONE), "clay_lost_pieces", k, m, w, status);
    hold(status == CLAY_DONE || is_marked((uint8_t *)list, (pieces + 1) * sizeof *list), "what clay_lost_pieces wrote", k, m, w, status);
    if (wanted == CLAY_DONE)
        hold(clay_lost_pieces(k, m, w, lost, from, to, list, pieces) == CLAY_DONE, "clay_lost_pieces", k, m, w, 0);

    uint8_t *bytes = made(pieces * w + 1), *out = made(width + 1);
    memset(bytes, 0, pieces * w + 1);
    memset(out, 0xa5, width + 1);
    for (size_t i = 0; i < pieces && wanted == CLAY_DONE; i++)
        memcpy(bytes + i * w, word + list[i].chunk * len + (size_t)list[i].layer * w, w);
    status = clay_read_lost(k, m, w, lost, from, to, bytes, read, out, given);
    int is_right = read == pieces * w && given == width;
    hold(status == (wanted != CLAY_DONE ? wanted : is_right ? CLAY_DONE : CLAY_BAD_LENGTH), "clay_read_lost", k, m, w, status);
    hold(status == CLAY_DONE ? memcmp(out, word + lost * len + (size_t)from * w, width) == 0 : is_marked(out, width + 1), "what clay_read_lost wrote", k, m, w, status);
    free(out);
    free(bytes);
    free(list);
    free(word);
}

/* The allocation of a call that is refused, counted from there, or 0 for none. checks/library links malloc and realloc to these. */
static _Thread_local uint32_t refused_at;
static _Thread_local int is_refused;
void *__real_malloc(size_t size);
void *__real_realloc(void *old, size_t size);

static int refused(void) {
    return refused_at > 0 && --refused_at == 0 ? is_refused = 1 : 0;
}

void *__wrap_malloc(size_t size) {
    return refused() ? NULL : __real_malloc(size);
}

void *__wrap_realloc(void *old, size_t size) {
    return refused() ? NULL : __real_realloc(old, size);
}

static void refuse(uint64_t *state) {
    refused_at = drawn(state) % 4 ? 0 : 1 + drawn(state) % 16;
    is_refused = 0;
}

/* How a call ends that would end so with memory. */
static uint32_t or_refused(uint32_t wanted) {
    refused_at = 0;
    return is_refused ? CLAY_OUT_OF_MEMORY : wanted;
}

/* The same while other chunks are missing too: marks may be too many or too few, chunks may be too few, and memory may be refused. */
static void missing(uint64_t *state) {
    struct stripe it = drawn_stripe(state);
    uint32_t k = it.k, m = it.m, w = it.w;
    struct clay_numbers g = it.g;
    size_t len = g.chunk_len, flags = beside(state, g.chunks);
    uint8_t *word = it.word;
    uint32_t lost = drawn(state) % (g.chunks + 1), from = drawn(state) % g.layers, to = drawn(state) % 2 ? from + 1 : drawn(state) % (g.layers + 2);
    uint8_t present[MOST] = {0};
    uint32_t gone = 0, one_in = 2 + drawn(state) % 8;
    for (uint32_t c = 0; c < g.chunks; c++) {
        present[c] = drawn(state) % one_in ? 1 + drawn(state) % 255 : 0;
        gone += c == lost || !present[c];
    }
    uint32_t wanted = lost >= g.chunks ? CLAY_BAD_CHUNK : from > to || to > g.layers ? CLAY_BAD_LAYER : flags != g.chunks ? CLAY_BAD_LENGTH : gone > m ? CLAY_TOO_FEW : CLAY_DONE;
    uint32_t count = 0xa5a5a5a5, others;
    refuse(state);
    uint32_t status = clay_missing_count(k, m, w, lost, from, to, present, flags, &count);
    hold(status == or_refused(wanted), "clay_missing_count", k, m, w, status);
    hold(status == CLAY_DONE || is_marked((uint8_t *)&count, sizeof count), "its count", k, m, w, status);
    if (wanted == CLAY_DONE)
        hold(clay_missing_count(k, m, w, lost, from, to, present, flags, &count) == CLAY_DONE && count <= (g.chunks - gone) * g.layers, "clay_missing_count", k, m, w, 0);
    if (wanted == CLAY_DONE && gone == 1 && to == from + 1 && g.virtual_nodes == 0)
        hold(clay_lost_count(k, m, w, lost, from, to, &others) == CLAY_DONE && count == others, "the count of one layer with all others", k, m, w, 0);

    size_t pieces = wanted == CLAY_DONE ? count : 1, room = around(state, pieces);
    struct clay_piece *list = made((pieces + 1) * sizeof *list);
    memset(list, 0xa5, (pieces + 1) * sizeof *list);
    refuse(state);
    status = clay_missing_pieces(k, m, w, lost, from, to, present, flags, list, room);
    hold(status == or_refused(wanted != CLAY_DONE ? wanted : room != pieces ? CLAY_BAD_LENGTH : CLAY_DONE), "clay_missing_pieces", k, m, w, status);
    hold(status == CLAY_DONE || is_marked((uint8_t *)list, (pieces + 1) * sizeof *list), "what clay_missing_pieces wrote", k, m, w, status);
    if (wanted == CLAY_DONE)
        hold(clay_missing_pieces(k, m, w, lost, from, to, present, flags, list, pieces) == CLAY_DONE, "clay_missing_pieces", k, m, w, 0);

    size_t width = (size_t)w * (wanted == CLAY_DONE ? to - from : 1), given = around(state, width);
    uint8_t *bytes = made(pieces * w), *out = made(width + 1);
    memset(bytes, 0, pieces * w);
    memset(out, 0xa5, width + 1);
    for (size_t i = 0; i < pieces && wanted == CLAY_DONE; i++) {
        hold(list[i].chunk < g.chunks && list[i].chunk != lost && present[list[i].chunk], "a piece of clay_missing_pieces", k, m, w, 0);
        memcpy(bytes + i * w, word + list[i].chunk * len + (size_t)list[i].layer * w, w);
    }
    int is_right = given == width;
    struct clay_bytes *apart = copies(state, bytes, pieces, w, &is_right);
    size_t read = pieces > 0 && drawn(state) % 4 == 0 ? pieces - 1 : pieces;
    is_right = is_right && read == pieces;
    refuse(state);
    status = clay_read_missing(k, m, w, lost, from, to, present, flags, apart, read, out, given);
    hold(status == or_refused(wanted != CLAY_DONE ? wanted : is_right ? CLAY_DONE : CLAY_BAD_LENGTH), "clay_read_missing", k, m, w, status);
    hold(status == CLAY_DONE ? memcmp(out, word + lost * len + (size_t)from * w, width) == 0 : is_marked(out, width + 1), "what clay_read_missing wrote", k, m, w, status);
    free_copies(apart, pieces);
    free(out);
    free(bytes);
    free(list);
    free(word);
}

static void *thread(void *number) {
    uint64_t state = start + (uint64_t)(uintptr_t)number * 0x1234567;
    for (int round = 0; round < rounds; round++) {
        numbers(&state);
        chunks(&state);
        fewer(&state);
        degraded(&state);
        missing(&state);
    }
    return NULL;
}

int main(int count, char **words) {
    pthread_t threads[MOST];
    int many = count > 1 ? atoi(words[1]) : 8;
    rounds = count > 2 ? atoi(words[2]) : 1000;
    start = count > 3 ? strtoull(words[3], NULL, 10) : 1;
    if (many < 1 || many > MOST)
        return 2;
    for (int i = 0; i < many; i++)
        if (pthread_create(&threads[i], NULL, thread, (void *)(uintptr_t)i) != 0)
            return 2;
    for (int i = 0; i < many; i++)
        pthread_join(threads[i], NULL);
    printf("%d threads with %d rounds each: %s\n", many, rounds, failed ? "a call ended otherwise" : "each call ended as it should");
    return failed;
}
