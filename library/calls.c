/* The calls of clay.h over the proved library, which stands here once for each level of processor: x86-64-v2, and x86-64-v3 with AVX2. When
 * the program starts, or loads the library, the level is picked by what the processor says. CLAY_LEVEL=v2 in the environment lowers it, for
 * tests. */
#include <clay.h>
#include <stdlib.h>
#include <string.h>

/* A call that another file's constructor makes before `pick` has run goes to v2, which every processor here can run. */
static int is_v3;

__attribute__((constructor)) static void pick(void) {
    const char *most = getenv("CLAY_LEVEL");
    __builtin_cpu_init();
    is_v3 = __builtin_cpu_supports("x86-64-v3") && !(most && strcmp(most, "v2") == 0);
}

#define CALL(name, parameters, arguments)                        \
    uint32_t name##_v2 parameters;                               \
    uint32_t name##_v3 parameters;                               \
    uint32_t name parameters {                                   \
        return is_v3 ? name##_v3 arguments : name##_v2 arguments; \
    }

CALL(clay_geometry, (uint32_t k, uint32_t m, uint32_t w, struct clay_numbers *numbers), (k, m, w, numbers))

CALL(clay_parity,
     (uint32_t k, uint32_t m, uint32_t w, const uint8_t *stripe, size_t stripe_len, uint8_t *parity, size_t parity_len),
     (k, m, w, stripe, stripe_len, parity, parity_len))

CALL(clay_recover,
     (uint32_t k, uint32_t m, uint32_t w, const uint8_t *present, size_t present_len, uint8_t *chunks, size_t chunks_len),
     (k, m, w, present, present_len, chunks, chunks_len))

CALL(clay_repair_layers, (uint32_t k, uint32_t m, uint32_t w, uint32_t lost, uint32_t *layers, size_t layers_len), (k, m, w, lost, layers, layers_len))

CALL(clay_rebuild,
     (uint32_t k, uint32_t m, uint32_t w, uint32_t lost, const uint8_t *parts, size_t parts_len, uint8_t *chunk, size_t chunk_len),
     (k, m, w, lost, parts, parts_len, chunk, chunk_len))

CALL(clay_encode_chunks,
     (uint32_t k, uint32_t m, uint32_t w, const struct clay_bytes *data, size_t data_count, const struct clay_room *parity, size_t parity_count),
     (k, m, w, data, data_count, parity, parity_count))

CALL(clay_recover_chunks,
     (uint32_t k, uint32_t m, uint32_t w, const uint8_t *present, size_t present_len, const struct clay_bytes *chunks, size_t chunk_count,
      const struct clay_room *missing, size_t missing_count),
     (k, m, w, present, present_len, chunks, chunk_count, missing, missing_count))

CALL(clay_rebuild_chunks,
     (uint32_t k, uint32_t m, uint32_t w, uint32_t lost, const struct clay_bytes *parts, size_t part_count, uint8_t *chunk, size_t chunk_len),
     (k, m, w, lost, parts, part_count, chunk, chunk_len))

CALL(clay_geometry_with_helpers, (uint32_t k, uint32_t m, uint32_t d, uint32_t w, struct clay_numbers *numbers), (k, m, d, w, numbers))

CALL(clay_parity_with_helpers,
     (uint32_t k, uint32_t m, uint32_t d, uint32_t w, const uint8_t *stripe, size_t stripe_len, uint8_t *parity, size_t parity_len),
     (k, m, d, w, stripe, stripe_len, parity, parity_len))

CALL(clay_recover_with_helpers,
     (uint32_t k, uint32_t m, uint32_t d, uint32_t w, const uint8_t *present, size_t present_len, uint8_t *chunks, size_t chunks_len),
     (k, m, d, w, present, present_len, chunks, chunks_len))

CALL(clay_repair_layers_with_helpers,
     (uint32_t k, uint32_t m, uint32_t d, uint32_t w, uint32_t lost, uint32_t *layers, size_t layers_len),
     (k, m, d, w, lost, layers, layers_len))

CALL(clay_rebuild_with_helpers,
     (uint32_t k, uint32_t m, uint32_t d, uint32_t w, uint32_t lost, const uint8_t *helpers, size_t helpers_len, const uint8_t *parts, size_t parts_len,
      uint8_t *chunk, size_t chunk_len),
     (k, m, d, w, lost, helpers, helpers_len, parts, parts_len, chunk, chunk_len))

CALL(clay_lost_count, (uint32_t k, uint32_t m, uint32_t w, uint32_t lost, uint32_t from, uint32_t to, uint32_t *count), (k, m, w, lost, from, to, count))

CALL(clay_lost_pieces,
     (uint32_t k, uint32_t m, uint32_t w, uint32_t lost, uint32_t from, uint32_t to, struct clay_piece *pieces, size_t pieces_len),
     (k, m, w, lost, from, to, pieces, pieces_len))

CALL(clay_read_lost,
     (uint32_t k, uint32_t m, uint32_t w, uint32_t lost, uint32_t from, uint32_t to, const uint8_t *pieces, size_t pieces_len, uint8_t *subchunks,
      size_t subchunks_len),
     (k, m, w, lost, from, to, pieces, pieces_len, subchunks, subchunks_len))

CALL(clay_missing_count,
     (uint32_t k, uint32_t m, uint32_t w, uint32_t lost, uint32_t from, uint32_t to, const uint8_t *present, size_t present_len, uint32_t *count),
     (k, m, w, lost, from, to, present, present_len, count))

CALL(clay_missing_pieces,
     (uint32_t k, uint32_t m, uint32_t w, uint32_t lost, uint32_t from, uint32_t to, const uint8_t *present, size_t present_len, struct clay_piece *pieces,
      size_t pieces_len),
     (k, m, w, lost, from, to, present, present_len, pieces, pieces_len))

CALL(clay_read_missing,
     (uint32_t k, uint32_t m, uint32_t w, uint32_t lost, uint32_t from, uint32_t to, const uint8_t *present, size_t present_len,
      const struct clay_bytes *pieces, size_t piece_count, uint8_t *subchunks, size_t subchunks_len),
     (k, m, w, lost, from, to, present, present_len, pieces, piece_count, subchunks, subchunks_len))
