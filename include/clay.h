/* Clay codes: chunks of a stripe that outlive the loss of any m of them, of which a lost one is rebuilt from 1/m of each other one.
 *
 * A stripe is the bytes of k data chunks, one behind another. It gets m parity chunks, which are numbered behind the data chunks. A chunk
 * has a subchunk of w bytes for each layer, one behind another. All lengths are in bytes but those of lists of layers.
 *
 * Each call tests the numbers and the lengths that it is given, and returns a clay_status. Where that isn't CLAY_DONE, it has written
 * nothing. What it can't test is the caller's to keep: a pointer isn't null, is aligned for its type and points at as many elements as the
 * length behind it says, and what a call writes doesn't overlap what it reads. Calls may run in several threads at once. */
#ifndef CLAY_H
#define CLAY_H

#include <stddef.h>
#include <stdint.h>

#ifdef __cplusplus
extern "C" {
#endif

/* How a call ends: at the first test that fails, in the order of these numbers but for CLAY_BAD_CHUNK and then CLAY_BAD_LAYER, which are
 * tested before lengths, and CLAY_BAD_HELPERS, which is tested before memory is taken. The last three calls have an order of their own. */
enum clay_status {
    CLAY_DONE = 0,
    CLAY_BAD_GEOMETRY = 1, /* k, m and w aren't within the limits that clay_geometry names */
    CLAY_BAD_LENGTH = 2,   /* a buffer has another length than the call asks */
    CLAY_BAD_CHUNK = 3,    /* there is no chunk of this number */
    CLAY_TOO_FEW = 4,      /* more than m chunks are missing */
    CLAY_OUT_OF_MEMORY = 5,
    CLAY_BAD_HELPERS = 6,  /* the helpers aren't d, or the lost chunk is one, or another chunk of its column is none */
    CLAY_BAD_LAYER = 7     /* from is above to, or to above alpha */
};

/* The numbers of a code. */
struct clay_numbers {
    uint32_t chunks;        /* n = k + m, at most 24 */
    uint32_t rows;          /* q = m: rows of the grid in which the nodes stand */
    uint32_t columns;       /* t: its columns, at most 10 */
    uint32_t virtual_nodes; /* nu: nodes of the grid without a chunk, q * t - n */
    uint32_t layers;        /* alpha: subchunks of a chunk, q to the power t, at most 1024 */
    uint32_t chunk_len;     /* alpha * w bytes, at most 1048576 */
    uint32_t stripe_len;    /* k * chunk_len bytes */
    uint32_t part_len;      /* chunk_len / m bytes: what a rebuild reads of each other chunk */
};

/* Writes the numbers of the code of k data chunks (2 or more), m parity chunks (2 to 8) and subchunks of w bytes (1 to 65536), where it
 * has at most 1024 layers and 1048576 bytes in a chunk.
 * CLAY_DONE, CLAY_BAD_GEOMETRY. */
uint32_t clay_geometry(uint32_t k, uint32_t m, uint32_t w, struct clay_numbers *numbers);

/* Writes the parity chunks of a stripe, one behind another.
 * stripe_len: as clay_geometry tells. parity_len: m * chunk_len.
 * CLAY_DONE, CLAY_BAD_GEOMETRY, CLAY_BAD_LENGTH, CLAY_OUT_OF_MEMORY. */
uint32_t clay_parity(uint32_t k, uint32_t m, uint32_t w, const uint8_t *stripe, size_t stripe_len, uint8_t *parity, size_t parity_len);

/* Writes the missing ones of all chunks, which stand one behind another by rising number, and leaves the others as they are: they are read
 * where they stand. What stood at a missing one's place doesn't count. That the others are of one codeword isn't tested: where they aren't,
 * some bytes are written.
 * present: a byte for each chunk, 0 where it is missing; present_len: n. chunks_len: n * chunk_len.
 * CLAY_DONE, CLAY_BAD_GEOMETRY, CLAY_BAD_LENGTH, CLAY_TOO_FEW, CLAY_OUT_OF_MEMORY. */
uint32_t clay_recover(uint32_t k, uint32_t m, uint32_t w, const uint8_t *present, size_t present_len, uint8_t *chunks, size_t chunks_len);

/* Writes the numbers of the layers, rising, whose subchunks a rebuild of chunk `lost` reads of each other chunk.
 * layers_len: alpha / m elements (not bytes).
 * CLAY_DONE, CLAY_BAD_GEOMETRY, CLAY_BAD_LENGTH, CLAY_BAD_CHUNK, CLAY_OUT_OF_MEMORY. */
uint32_t clay_repair_layers(uint32_t k, uint32_t m, uint32_t w, uint32_t lost, uint32_t *layers, size_t layers_len);

/* Writes chunk `lost` from the parts of all others, which stand one behind another by rising number of their chunks. The part of a chunk
 * is its subchunks of those layers, one behind another. The parts are read where they stand. That they are of one codeword isn't tested.
 * parts_len: (n - 1) * part_len. chunk_len: as clay_geometry tells.
 * CLAY_DONE, CLAY_BAD_GEOMETRY, CLAY_BAD_LENGTH, CLAY_BAD_CHUNK, CLAY_OUT_OF_MEMORY. */
uint32_t clay_rebuild(uint32_t k, uint32_t m, uint32_t w, uint32_t lost, const uint8_t *parts, size_t parts_len, uint8_t *chunk, size_t chunk_len);

/* The same for callers whose chunks or parts stand apart: each is given by where it stands and how many bytes it has. */

/* Bytes that a call reads where they stand. */
struct clay_bytes {
    const uint8_t *bytes;
    size_t len;
};

/* Bytes that a call writes. */
struct clay_room {
    uint8_t *bytes;
    size_t len;
};

/* Writes the parity chunks of a stripe from its data chunks. Each has chunk_len bytes.
 * data_count: k. parity_count: m.
 * CLAY_DONE, CLAY_BAD_GEOMETRY, CLAY_BAD_LENGTH, CLAY_OUT_OF_MEMORY. */
uint32_t clay_encode_chunks(uint32_t k, uint32_t m, uint32_t w, const struct clay_bytes *data, size_t data_count, const struct clay_room *parity, size_t parity_count);

/* Writes the missing chunks from those that are there. That these are of one codeword isn't tested: where they aren't, some bytes are written.
 * present: a byte for each chunk, 0 where it is missing; present_len: n. chunks: those that are there, by rising number; chunk_count: as many.
 * missing: room for each other one, by rising number; missing_count: as many. Each has chunk_len bytes.
 * CLAY_DONE, CLAY_BAD_GEOMETRY, CLAY_BAD_LENGTH, CLAY_TOO_FEW, CLAY_OUT_OF_MEMORY. */
uint32_t clay_recover_chunks(uint32_t k, uint32_t m, uint32_t w, const uint8_t *present, size_t present_len, const struct clay_bytes *chunks, size_t chunk_count, const struct clay_room *missing, size_t missing_count);

/* Writes chunk `lost` from the parts of all others, by rising number of their chunks, each of part_len bytes. That they are of one codeword
 * isn't tested.
 * part_count: n - 1. chunk_len: as clay_geometry tells.
 * CLAY_DONE, CLAY_BAD_GEOMETRY, CLAY_BAD_LENGTH, CLAY_BAD_CHUNK, CLAY_OUT_OF_MEMORY. */
uint32_t clay_rebuild_chunks(uint32_t k, uint32_t m, uint32_t w, uint32_t lost, const struct clay_bytes *parts, size_t part_count, uint8_t *chunk, size_t chunk_len);

/* The same code family with d helpers of a rebuild, fewer than there are other chunks: k < d < k + m. With d = k + m - 1 the codewords are
 * those of the calls above. The grid has d - k + 1 rows. Node i of it stands in column i / rows; chunk c is node c where it is a data chunk,
 * and else node c + virtual_nodes. */

/* Writes the numbers of the code, within the limits of clay_geometry. rows: d - k + 1. part_len: chunk_len / rows bytes, what a rebuild
 * reads of each helper.
 * CLAY_DONE, CLAY_BAD_GEOMETRY. */
uint32_t clay_geometry_with_helpers(uint32_t k, uint32_t m, uint32_t d, uint32_t w, struct clay_numbers *numbers);

/* Writes the parity chunks of a stripe, one behind another.
 * stripe_len: as clay_geometry_with_helpers tells. parity_len: m * chunk_len.
 * CLAY_DONE, CLAY_BAD_GEOMETRY, CLAY_BAD_LENGTH, CLAY_OUT_OF_MEMORY. */
uint32_t clay_parity_with_helpers(uint32_t k, uint32_t m, uint32_t d, uint32_t w, const uint8_t *stripe, size_t stripe_len, uint8_t *parity, size_t parity_len);

/* Writes the missing ones of all chunks, which stand one behind another by rising number, and leaves the others as they are: they are read
 * where they stand. What stood at a missing one's place doesn't count. That the others are of one codeword isn't tested: where they aren't,
 * some bytes are written.
 * present: a byte for each chunk, 0 where it is missing; present_len: n. chunks_len: n * chunk_len.
 * CLAY_DONE, CLAY_BAD_GEOMETRY, CLAY_BAD_LENGTH, CLAY_TOO_FEW, CLAY_OUT_OF_MEMORY. */
uint32_t clay_recover_with_helpers(uint32_t k, uint32_t m, uint32_t d, uint32_t w, const uint8_t *present, size_t present_len, uint8_t *chunks, size_t chunks_len);

/* Writes the numbers of the layers, rising, whose subchunks a rebuild of chunk `lost` reads of each helper.
 * layers_len: alpha / rows elements (not bytes).
 * CLAY_DONE, CLAY_BAD_GEOMETRY, CLAY_BAD_LENGTH, CLAY_BAD_CHUNK, CLAY_OUT_OF_MEMORY. */
uint32_t clay_repair_layers_with_helpers(uint32_t k, uint32_t m, uint32_t d, uint32_t w, uint32_t lost, uint32_t *layers, size_t layers_len);

/* Writes chunk `lost` from the parts of d helpers, which stand one behind another by rising number of their chunks. The part of a chunk is
 * its subchunks of those layers, one behind another. The parts are read where they stand. Any parts are those of some codeword.
 * helpers: a byte for each chunk, 0 where it doesn't help; helpers_len: n. Each other chunk of the lost one's column helps.
 * parts_len: d * part_len. chunk_len: as clay_geometry_with_helpers tells.
 * CLAY_DONE, CLAY_BAD_GEOMETRY, CLAY_BAD_LENGTH, CLAY_BAD_CHUNK, CLAY_OUT_OF_MEMORY, CLAY_BAD_HELPERS. */
uint32_t clay_rebuild_with_helpers(uint32_t k, uint32_t m, uint32_t d, uint32_t w, uint32_t lost, const uint8_t *helpers, size_t helpers_len, const uint8_t *parts, size_t parts_len, uint8_t *chunk, size_t chunk_len);

/* Some layers of one lost chunk, from few subchunks of the others, which are all there: of the code of clay_geometry. Where no node is virtual,
 * one layer takes 2k - t + 1 subchunks, of k chunks. All layers take what clay_rebuild takes, and no run of layers takes more of a chunk.
 * Where only the same w bytes of each subchunk are wanted, they are read of each piece, and the calls get that w: bytes at the same place of all
 * subchunks are a code of their own. */

/* A subchunk of a chunk. */
struct clay_piece {
    uint32_t chunk;
    uint32_t layer;
};

/* Writes how many subchunks of other chunks the layers from..to of chunk `lost` take: layer `from` is the first, and `to` the one behind the
 * last. from and to: at most alpha.
 * CLAY_DONE, CLAY_BAD_GEOMETRY, CLAY_BAD_CHUNK, CLAY_BAD_LAYER. */
uint32_t clay_lost_count(uint32_t k, uint32_t m, uint32_t w, uint32_t lost, uint32_t from, uint32_t to, uint32_t *count);

/* Writes which they are: by rising number of their chunks, and of a chunk by rising layer.
 * pieces_len: as many elements (not bytes) as clay_lost_count tells.
 * CLAY_DONE, CLAY_BAD_GEOMETRY, CLAY_BAD_LENGTH, CLAY_BAD_CHUNK, CLAY_OUT_OF_MEMORY, CLAY_BAD_LAYER. */
uint32_t clay_lost_pieces(uint32_t k, uint32_t m, uint32_t w, uint32_t lost, uint32_t from, uint32_t to, struct clay_piece *pieces, size_t pieces_len);

/* Writes the layers from..to of chunk `lost`, one behind another, from the bytes of these subchunks, which stand one behind another in that
 * order and are read where they stand. That they are of one codeword isn't tested: where they aren't, some bytes are written.
 * pieces_len: w bytes for each of them. subchunks_len: (to - from) * w.
 * CLAY_DONE, CLAY_BAD_GEOMETRY, CLAY_BAD_LENGTH, CLAY_BAD_CHUNK, CLAY_OUT_OF_MEMORY, CLAY_BAD_LAYER. */
uint32_t clay_read_lost(uint32_t k, uint32_t m, uint32_t w, uint32_t lost, uint32_t from, uint32_t to, const uint8_t *pieces, size_t pieces_len, uint8_t *subchunks, size_t subchunks_len);

/* The same while other chunks are missing too, up to m with the lost one: only subchunks of chunks that are there are read. Where all others
 * are there, one layer may take other subchunks than by the calls above. What is read is the same.
 * present: a byte for each chunk, 0 where it is missing, as in clay_recover; present_len: n. That of the lost one doesn't count.
 * Tested in this order: k, m and w, lost, layers, present_len, CLAY_TOO_FEW, memory for the list of the subchunks, other lengths. */

/* Writes how many subchunks the layers from..to of chunk `lost` take.
 * CLAY_DONE, CLAY_BAD_GEOMETRY, CLAY_BAD_LENGTH, CLAY_BAD_CHUNK, CLAY_TOO_FEW, CLAY_OUT_OF_MEMORY, CLAY_BAD_LAYER. */
uint32_t clay_missing_count(uint32_t k, uint32_t m, uint32_t w, uint32_t lost, uint32_t from, uint32_t to, const uint8_t *present, size_t present_len, uint32_t *count);

/* Writes which they are: by rising number of their chunks, and of a chunk by rising layer.
 * pieces_len: as many elements (not bytes) as clay_missing_count tells.
 * CLAY_DONE, CLAY_BAD_GEOMETRY, CLAY_BAD_LENGTH, CLAY_BAD_CHUNK, CLAY_TOO_FEW, CLAY_OUT_OF_MEMORY, CLAY_BAD_LAYER. */
uint32_t clay_missing_pieces(uint32_t k, uint32_t m, uint32_t w, uint32_t lost, uint32_t from, uint32_t to, const uint8_t *present, size_t present_len, struct clay_piece *pieces, size_t pieces_len);

/* Writes the layers from..to of chunk `lost`, one behind another, from the bytes of these subchunks in that order. Each may stand anywhere, and is
 * read where it stands. That they are of one codeword isn't tested: where they aren't, some bytes are written.
 * piece_count: as many elements (not bytes) as clay_missing_count tells, each of w bytes. subchunks_len: (to - from) * w.
 * CLAY_DONE, CLAY_BAD_GEOMETRY, CLAY_BAD_LENGTH, CLAY_BAD_CHUNK, CLAY_TOO_FEW, CLAY_OUT_OF_MEMORY, CLAY_BAD_LAYER. */
uint32_t clay_read_missing(uint32_t k, uint32_t m, uint32_t w, uint32_t lost, uint32_t from, uint32_t to, const uint8_t *present, size_t present_len, const struct clay_bytes *pieces, size_t piece_count, uint8_t *subchunks, size_t subchunks_len);

#ifdef __cplusplus
}
#endif

#endif
