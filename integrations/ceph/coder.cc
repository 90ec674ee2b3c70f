#include "coder.h"

#include <algorithm>
#include <cerrno>
#include <cstring>

using ceph::bufferlist;
using ceph::bufferptr;
using std::vector;

namespace {

const size_t longest_chunk = 1048576, longest_call = 65536; // the library's limits of a chunk and of a subchunk

// A share of each subchunk of `width` bytes that one call codes: `len` bytes from `at` on. Layers are coded byte by byte, so any shares do.
struct Share {
  size_t width, at, len;

  bool is_whole() const { return len == width; }
};

vector<Share> shares_of(size_t width, size_t most) {
  vector<Share> shares;
  for (size_t at = 0; at < width; at += most) shares.push_back({width, at, std::min(most, width - at)});
  return shares;
}

int error_of(uint32_t status) {
  switch (status) {
  case CLAY_DONE: return 0;
  case CLAY_TOO_FEW: return -EIO;
  case CLAY_OUT_OF_MEMORY: return -ENOMEM;
  default: return -EINVAL;
  }
}

// Whole pages, so that an osd writes them to its disk as they lie.
bufferptr room(size_t len) { return bufferptr(ceph::buffer::create_aligned(len, 4096)); }

uint8_t *bytes_of(bufferptr &buffer) { return reinterpret_cast<uint8_t *>(buffer.c_str()); }

bufferlist list_of(const bufferptr &buffer) {
  bufferlist list;
  list.append(buffer);
  return list;
}

// Copies the share of each subchunk in `list` to `to`, one behind another.
void gather(const bufferlist &list, const Share &share, uint8_t *to) {
  if (share.is_whole()) return list.begin().copy(list.length(), reinterpret_cast<char *>(to));
  auto from = list.begin();
  for (size_t subchunk = 0; subchunk < list.length(); subchunk += share.width, to += share.len) {
    from.seek(subchunk + share.at);
    from.copy(share.len, reinterpret_cast<char *>(to));
  }
}

// Copies shares that lie one behind another into the subchunks of `to`.
void scatter(const uint8_t *from, const Share &share, bufferptr &to) {
  for (size_t subchunk = 0; subchunk < to.length(); subchunk += share.width, from += share.len) {
    memcpy(bytes_of(to) + subchunk + share.at, from, share.len);
  }
}

// The share of a list in one buffer: a copy, but where the whole list is one buffer.
bufferptr share_of(const bufferlist &list, const Share &share) {
  if (share.is_whole() && list.is_contiguous()) return list.front();
  bufferptr copy = room(list.length() / share.width * share.len);
  gather(list, share, bytes_of(copy));
  return copy;
}

// Where a call writes the share of `whole`: there itself, where it writes all of it.
bufferptr target_of(const bufferptr &whole, const Share &share) {
  return share.is_whole() ? whole : room(whole.length() / share.width * share.len);
}

bool have_length(const std::map<int, bufferlist> &chunks, size_t len) {
  return std::all_of(chunks.begin(), chunks.end(), [len](auto &chunk) { return chunk.second.length() == len; });
}

// A byte for each of `count` chunks: 1 where the map has it.
vector<uint8_t> marks_of(const std::map<int, bufferlist> &chunks, size_t count) {
  vector<uint8_t> marks(count, 0);
  for (auto &[chunk, list] : chunks) marks.at(chunk) = 1;
  return marks;
}

} // namespace

int Coder::set(uint32_t data, uint32_t parity, uint32_t helpers) {
  k = data, m = parity, d = helpers;
  return error_of(clay_geometry_with_helpers(k, m, d, 1, &numbers));
}

// Where all others help, the calls without a number of helpers write the same chunks in less time.

int Coder::call_parity(uint32_t w, bufferptr &stripe, bufferptr &parity) const {
  uint8_t *from = bytes_of(stripe), *to = bytes_of(parity);
  return error_of(all_help() ? clay_parity(k, m, w, from, stripe.length(), to, parity.length())
                             : clay_parity_with_helpers(k, m, d, w, from, stripe.length(), to, parity.length()));
}

int Coder::call_recover(uint32_t w, const Bytes &present, bufferptr &chunks) const {
  uint8_t *all = bytes_of(chunks);
  return error_of(all_help() ? clay_recover(k, m, w, present.data(), present.size(), all, chunks.length())
                             : clay_recover_with_helpers(k, m, d, w, present.data(), present.size(), all, chunks.length()));
}

int Coder::call_rebuild(uint32_t w, unsigned lost, const Bytes &helpers, bufferptr &parts, bufferptr &chunk) const {
  uint8_t *from = bytes_of(parts), *to = bytes_of(chunk);
  return error_of(all_help() ? clay_rebuild(k, m, w, lost, from, parts.length(), to, chunk.length())
                             : clay_rebuild_with_helpers(k, m, d, w, lost, helpers.data(), helpers.size(), from, parts.length(), to, chunk.length()));
}

// The length of each of `count` subchunks that have `len` bytes together; 0 where there is none.
size_t Coder::subchunk_len(size_t len, size_t count) const { return count && len % count == 0 ? len / count : 0; }

size_t Coder::longest_subchunk() const { return std::min(longest_chunk / numbers.layers, longest_call); }

int Coder::repair_layers(unsigned lost, vector<uint32_t> *layers) const {
  vector<uint32_t> read(numbers.layers / numbers.rows);
  int error = error_of(clay_repair_layers_with_helpers(k, m, d, 1, lost, read.data(), read.size()));
  if (!error) layers->swap(read);
  return error;
}

int Coder::parity(bufferlist *stripe, bufferlist *parity) const {
  size_t width = subchunk_len(stripe->length(), k * numbers.layers);
  if (!width) return -EINVAL;
  if (width <= longest_subchunk() && !stripe->is_contiguous()) *stripe = list_of(share_of(*stripe, {width, 0, width}));
  bufferptr made = room(m * numbers.layers * width);
  for (const Share &share : shares_of(width, longest_subchunk())) {
    bufferptr from = share_of(*stripe, share), to = target_of(made, share);
    int error = call_parity(share.len, from, to);
    if (error) return error;
    if (!share.is_whole()) scatter(bytes_of(to), share, made);
  }
  *parity = list_of(made);
  return 0;
}

// The call takes all chunks in one buffer, so each present chunk is copied once. The missing ones stay in it where one call makes them.
int Coder::recover(const Chunks &present, Chunks *missing) const {
  if (present.size() < k) return -EIO;
  size_t chunk_len = present.begin()->second.length(), width = subchunk_len(chunk_len, numbers.layers);
  if (!width || !have_length(present, chunk_len)) return -EINVAL;
  Bytes is_present = marks_of(present, numbers.chunks);
  std::map<int, bufferptr> made;
  for (const Share &share : shares_of(width, longest_subchunk())) {
    size_t len = numbers.layers * share.len;
    bufferptr all = room(numbers.chunks * len);
    for (auto &[chunk, list] : present) gather(list, share, bytes_of(all) + chunk * len);
    int error = call_recover(share.len, is_present, all);
    if (error) return error;
    for (unsigned chunk = 0; chunk < numbers.chunks; chunk++) {
      if (is_present[chunk]) continue;
      bufferptr &to = made[chunk];
      if (!to.have_raw()) to = share.is_whole() ? bufferptr(all, chunk * len, len) : room(chunk_len);
      if (!share.is_whole()) scatter(bytes_of(all) + chunk * len, share, to);
    }
  }
  missing->clear();
  for (auto &[chunk, buffer] : made) (*missing)[chunk] = list_of(buffer);
  return 0;
}

// The call takes all parts in one buffer, so each is copied once.
int Coder::rebuild(unsigned lost, const Chunks &parts, bufferlist *chunk) const {
  if (parts.size() != d || parts.count(lost)) return -EIO;
  size_t len = parts.begin()->second.length(), width = subchunk_len(len, numbers.layers / numbers.rows);
  if (!width || !have_length(parts, len)) return -EINVAL;
  Bytes helpers = marks_of(parts, numbers.chunks);
  bufferptr made = room(numbers.layers * width);
  for (const Share &share : shares_of(width, longest_subchunk())) {
    size_t share_len = len / width * share.len;
    bufferptr from = room(parts.size() * share_len), to = target_of(made, share);
    uint8_t *next = bytes_of(from);
    for (auto &[number, part] : parts) gather(part, share, next), next += share_len;
    int error = call_rebuild(share.len, lost, helpers, from, to);
    if (error) return error;
    if (!share.is_whole()) scatter(bytes_of(to), share, made);
  }
  *chunk = list_of(made);
  return 0;
}
