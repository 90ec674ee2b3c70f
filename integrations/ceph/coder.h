// The calls of the library (include/clay.h) over chunks in Ceph's buffers, which may lie in pieces and be longer than a call takes.
//
// Each function returns 0, or an errno below it: -EINVAL for lengths that no chunks of the code have, -EIO for too few chunks, -ENOMEM. It
// then leaves what it was to write as it was. Where memory is short a buffer may throw as well.
#pragma once
#include <cstdint>
#include <map>
#include <vector>
#include <clay.h>
#include <rados/buffer.h>

class Coder {
  using bufferlist = ceph::bufferlist;
  using Chunks = std::map<int, bufferlist>;

  uint32_t k = 0, m = 0, d = 0;
  clay_numbers numbers = {}; // of subchunks of one byte

public:
  // Makes this the code of k data and m parity chunks, of which a repair has d helpers.
  int set(uint32_t k, uint32_t m, uint32_t d);

  unsigned chunk_count() const { return numbers.chunks; }
  unsigned layer_count() const { return numbers.layers; }
  unsigned row_count() const { return numbers.rows; }
  unsigned helper_count() const { return d; }

  // A lost chunk's repair needs all others of its column as helpers.
  unsigned column_of(unsigned chunk) const { return (chunk < k ? chunk : chunk + numbers.virtual_nodes) / numbers.rows; }

  // The length of a part: what a repair reads of a chunk.
  size_t part_len(size_t chunk_len) const { return chunk_len / numbers.rows; }

  // The numbers of the layers, rising, that a repair of chunk `lost` reads of each helper.
  int repair_layers(unsigned lost, std::vector<uint32_t> *layers) const;

  // The parity chunks, one behind another, of a stripe of k chunks. Where one call codes it, a stripe in pieces is laid into one buffer.
  int parity(bufferlist *stripe, bufferlist *parity) const;

  // Each chunk that `present` lacks.
  int recover(const Chunks &present, Chunks *missing) const;

  // Chunk `lost`, from the parts of its helpers.
  int rebuild(unsigned lost, const Chunks &parts, bufferlist *chunk) const;

private:
  size_t subchunk_len(size_t len, size_t count) const;
  size_t longest_subchunk() const;

  using Bytes = std::vector<uint8_t>; // one for each chunk: 1 where it is there, or helps
  bool all_help() const { return d + 1 == numbers.chunks; }
  int call_parity(uint32_t w, ceph::bufferptr &stripe, ceph::bufferptr &parity) const;
  int call_recover(uint32_t w, const Bytes &present, ceph::bufferptr &chunks) const;
  int call_rebuild(uint32_t w, unsigned lost, const Bytes &helpers, ceph::bufferptr &parts, ceph::bufferptr &chunk) const;
};
