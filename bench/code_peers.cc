// The library for C beside Ceph's plugin clay (over ISA-L) and ISA-L's Reed-Solomon code, in one process and thread; bench/code builds and
// runs it.
//
// What is timed: the processor time of this thread, by slices of time that alternate between the coders, several rounds of them. Of a slice
// the median of its calls counts, and ratios are those of the same round, so that a loaded machine harms them little. Each decoding and
// repair is compared once, byte by byte, before it is timed. GB/s are 10^9 bytes a second: of the data for encoding and decoding, of the lost chunk
// for repair.
//
// - Ceph: a call of the plugin on buffers that are there. It hands present chunks on without a copy, and takes new ones for what it makes.
// - With fewer helpers encoding and repair are timed, not recovery.
// - ISA-L: a call on buffers that are there; the matrix of a decoding and its tables are made anew in each, as for new losses.
// - clay_c: a call of libclay_c.a on buffers that are there. It copies none of what it reads.
#include <algorithm>
#include <cstdio>
#include <cstdlib>
#include <cstring>
#include <ctime>
#include <functional>
#include <iostream>
#include <random>
#include <sstream>
#include <string>
#include <vector>
#include <malloc.h>

#include <clay.h>
#include <isa-l.h>
#include <registry.h>

using std::function;
using std::make_shared;
using std::set;
using std::shared_ptr;
using std::string;
using std::vector;
using Bytes = vector<uint8_t>;

[[noreturn]] static void end_with(const string &message) {
  std::cerr << "code_peers: " << message << "\n";
  exit(1);
}

static void expect(bool holds, const string &what) {
  if (!holds) end_with(what);
}

// ---- Codes

// A code with d helpers of a repair, and the losses that are decoded: the chunks of the first column, and as many in several columns.
struct Code {
  uint32_t k, m, d, w;
  clay_numbers numbers;
  set<int> column, spread;

  size_t chunk_len() const { return numbers.chunk_len; }
  size_t stripe_len() const { return numbers.stripe_len; }
  bool has_fewer() const { return d + 1 < k + m; }
};

static Code code_of(uint32_t k, uint32_t m, uint32_t d, uint32_t w) {
  Code code{k, m, d, w, {}, {}, {}};
  uint32_t status = code.has_fewer() ? clay_geometry_with_helpers(k, m, d, w, &code.numbers) : clay_geometry(k, m, w, &code.numbers);
  expect(status == CLAY_DONE, "no code has these numbers");
  for (uint32_t e = 0; e < m; e++) {
    code.column.insert(e);
    uint32_t data = e * (m + 1);
    code.spread.insert(data < k ? data : k + e);
  }
  return code;
}

static Bytes random_bytes(size_t count, uint32_t seed = 12345) {
  Bytes bytes(count);
  std::mt19937 random(seed);
  for (auto &byte : bytes) byte = random();
  return bytes;
}

// ---- Measuring

static const char *const kinds[] = {"encode", "decode, a column", "decode, spread", "repair of one"};

// What one coder does in a call, and the seconds of a call in each round.
struct Operation {
  string coder, what;
  double bytes;
  function<void()> call;
  vector<double> seconds;
};

static double median(vector<double> values) {
  std::sort(values.begin(), values.end());
  size_t half = values.size() / 2;
  return values.size() % 2 ? values[half] : (values[half - 1] + values[half]) / 2;
}

static double thread_seconds() {
  timespec time;
  clock_gettime(CLOCK_THREAD_CPUTIME_ID, &time);
  return time.tv_sec + time.tv_nsec * 1e-9;
}

// ISA-L's functions, Ceph's plugin among their callers, return with the upper halves of the vector registers in use. Code that has only
// the lower halves then runs at less than half its speed until they are cleared.
static void clear_upper_halves() {
#ifdef __x86_64__
  if (__builtin_cpu_supports("avx")) asm volatile("vzeroupper" ::: "memory");
#endif
}

static double seconds_of_call(const function<void()> &call, double slice) {
  clear_upper_halves();
  vector<double> seconds;
  double begun = thread_seconds();
  do {
    double before = thread_seconds();
    call();
    seconds.push_back(thread_seconds() - before);
  } while (thread_seconds() - begun < slice);
  return median(seconds);
}

// Slices of the same kind follow each other, so that the coders are compared over as short a time as can be.
static void measure(vector<Operation> &operations, int rounds, double slice) {
  for (int round = 0; round < rounds; round++)
    for (const string kind : kinds)
      for (auto &operation : operations)
        if (operation.what == kind) operation.seconds.push_back(seconds_of_call(operation.call, slice));
}

// ---- Ceph

// The plugin for a code, with a stripe and its chunks. Subchunks of fewer than 32 bytes it codes as of 32, and so is its stripe longer.
struct CephCode {
  ceph::ErasureCodeInterfaceRef plugin;
  ceph::bufferlist stripe;
  ceph::Chunks chunks;
  set<int> all;
  unsigned chunk_len;

  CephCode(const Code &code, const string &directory) {
    ceph::ErasureCodeProfile profile = {{"plugin", "clay"}, {"scalar_mds", "isa"}, {"k", std::to_string(code.k)},
                                        {"m", std::to_string(code.m)}, {"d", std::to_string(code.d)}};
    std::ostringstream error;
    int status = ceph::ErasureCodePluginRegistry::singleton.factory("clay", directory, profile, &plugin, &error);
    expect(status == 0 && plugin, "Ceph's plugin clay: " + error.str());
    chunk_len = plugin->get_chunk_size(code.stripe_len());
    Bytes bytes = random_bytes(size_t(code.k) * chunk_len);
    ceph::bufferptr buffer(ceph::buffer::create_aligned(bytes.size(), 4096));
    memcpy(buffer.c_str(), bytes.data(), bytes.size());
    stripe.append(buffer);
    for (uint32_t c = 0; c < code.numbers.chunks; c++) all.insert(c);
    expect(plugin->encode(all, stripe, &chunks) == 0, "Ceph's encode");
  }

  ceph::Chunks left(const set<int> &lost) const {
    ceph::Chunks left = chunks;
    for (int c : lost) left.erase(c);
    return left;
  }

  // of each helper the subchunks from which chunk 0 is repaired; the plugin says who helps
  ceph::Chunks helpers() {
    set<int> available = all;
    available.erase(0);
    ceph::SubChunks runs;
    expect(plugin->minimum_to_decode({0}, available, &runs) == 0, "Ceph's minimum_to_decode");
    unsigned subchunk = chunk_len / plugin->get_sub_chunk_count();
    ceph::Chunks helpers;
    for (auto &of_chunk : runs) {
      string part;
      for (auto &run : of_chunk.second)
        part.append(chunks[of_chunk.first].c_str() + size_t(run.first) * subchunk, size_t(run.second) * subchunk);
      ceph::bufferptr buffer(ceph::buffer::create_aligned(part.size(), 4096));
      memcpy(buffer.c_str(), part.data(), part.size());
      helpers[of_chunk.first].append(buffer);
    }
    return helpers;
  }
};

static void add_ceph_decode(vector<Operation> &operations, shared_ptr<CephCode> ceph, const string &what, const set<int> &lost,
                            const ceph::Chunks &from, int chunk_len, double bytes) {
  auto decode = [=](ceph::Chunks &made) { expect(ceph->plugin->decode(lost, from, &made, chunk_len) == 0, "Ceph's " + what); };
  ceph::Chunks made;
  decode(made);
  for (int c : lost) expect(made[c].contents_equal(ceph->chunks[c]), "Ceph's " + what + " is wrong");
  operations.push_back({"Ceph clay(isa)", what, bytes, [=] {
                          ceph::Chunks made;
                          decode(made);
                        }, {}});
}

static void add_ceph(vector<Operation> &operations, const Code &code, const string &directory) {
  auto ceph = make_shared<CephCode>(code, directory);
  double bytes = double(code.k) * ceph->chunk_len;
  operations.push_back({"Ceph clay(isa)", "encode", bytes, [=] {
                          ceph::Chunks made;
                          expect(ceph->plugin->encode(ceph->all, ceph->stripe, &made) == 0, "Ceph's encode");
                        }, {}});
  if (!code.has_fewer()) {
    add_ceph_decode(operations, ceph, "decode, a column", code.column, ceph->left(code.column), 0, bytes);
    add_ceph_decode(operations, ceph, "decode, spread", code.spread, ceph->left(code.spread), 0, bytes);
  }
  add_ceph_decode(operations, ceph, "repair of one", {0}, ceph->helpers(), ceph->chunk_len, ceph->chunk_len);
}

// ---- ISA-L

// Reed-Solomon chunks of the same lengths, and room for those that are decoded.
struct IsalCode {
  int k, n;
  size_t len;
  vector<Bytes> chunks, decoded;
  Bytes matrix, tables;

  explicit IsalCode(const Code &code) : k(code.k), n(code.numbers.chunks), len(code.chunk_len()), matrix(n * k), tables(32 * k * (n - k)) {
    for (int c = 0; c < n; c++) chunks.push_back(random_bytes(len, c));
    decoded.resize(n - k, Bytes(len));
    gf_gen_cauchy1_matrix(matrix.data(), n, k);
    ec_init_tables(k, n - k, &matrix[k * k], tables.data());
    encode();
  }

  static vector<uint8_t *> pointers(vector<Bytes> &all) {
    vector<uint8_t *> pointers;
    for (auto &bytes : all) pointers.push_back(bytes.data());
    return pointers;
  }

  void encode() {
    auto all = pointers(chunks);
    ec_encode_data(len, k, n - k, tables.data(), all.data(), all.data() + k);
  }

  // the row by which a lost chunk is made of the first k that are left, whose rows have this inverse
  Bytes row_of(int lost, const Bytes &inverse) const {
    Bytes row(k, 0);
    for (int i = 0; i < k; i++)
      for (int j = 0; j < k; j++) row[i] ^= gf_mul(inverse[j * k + i], matrix[lost * k + j]);
    return row;
  }

  void decode(const set<int> &lost) {
    vector<uint8_t *> from, to = pointers(decoded);
    Bytes rows, inverse(k * k), lost_rows, lost_tables(32 * k * lost.size());
    for (int c = 0; c < n && int(from.size()) < k; c++) {
      if (lost.count(c)) continue;
      from.push_back(chunks[c].data());
      rows.insert(rows.end(), &matrix[c * k], &matrix[c * k] + k);
    }
    expect(gf_invert_matrix(rows.data(), inverse.data(), k) == 0, "ISA-L's matrix is singular");
    for (int c : lost) {
      Bytes row = row_of(c, inverse);
      lost_rows.insert(lost_rows.end(), row.begin(), row.end());
    }
    ec_init_tables(k, lost.size(), lost_rows.data(), lost_tables.data());
    ec_encode_data(len, k, lost.size(), lost_tables.data(), from.data(), to.data());
  }

  void check(const set<int> &lost) {
    decode(lost);
    int place = 0;
    for (int c : lost) expect(memcmp(decoded[place++].data(), chunks[c].data(), len) == 0, "ISA-L's decoding is wrong");
  }
};

static void add_isal(vector<Operation> &operations, const Code &code) {
  auto isal = make_shared<IsalCode>(code);
  double bytes = code.stripe_len();
  const string name = "ISA-L RS";
  for (auto &lost : {code.column, code.spread, set<int>{0}}) isal->check(lost);
  operations.push_back({name, "encode", bytes, [=] { isal->encode(); }, {}});
  if (!code.has_fewer()) {
    operations.push_back({name, "decode, a column", bytes, [=] { isal->decode(code.column); }, {}});
    operations.push_back({name, "decode, spread", bytes, [=] { isal->decode(code.spread); }, {}});
  }
  operations.push_back({name, "repair of one", double(code.chunk_len()), [=] { isal->decode({0}); }, {}});
}

// ---- Ours

// The chunks of a stripe one behind another, the parts of the first chunks behind chunk 0, and room for calls.
struct OurCode {
  Code code;
  Bytes chunks, wanted, helpers, parts, rebuilt;

  explicit OurCode(const Code &code)
      : code(code), chunks(random_bytes(code.numbers.chunks * code.chunk_len())), helpers(code.numbers.chunks, 0), rebuilt(code.chunk_len()) {
    encode();
    wanted = chunks;
    vector<uint32_t> layers(code.numbers.part_len / code.w);
    uint32_t status = code.has_fewer()
                          ? clay_repair_layers_with_helpers(code.k, code.m, code.d, code.w, 0, layers.data(), layers.size())
                          : clay_repair_layers(code.k, code.m, code.w, 0, layers.data(), layers.size());
    expect(status == CLAY_DONE, "the layers of a repair");
    for (uint32_t c = 1; c <= code.d; c++) {
      helpers[c] = 1;
      for (uint32_t layer : layers) {
        const uint8_t *from = &chunks[c * code.chunk_len() + size_t(layer) * code.w];
        parts.insert(parts.end(), from, from + code.w);
      }
    }
  }

  void encode() {
    size_t data = code.stripe_len(), parity = chunks.size() - data;
    uint32_t status = code.has_fewer()
                          ? clay_parity_with_helpers(code.k, code.m, code.d, code.w, chunks.data(), data, &chunks[data], parity)
                          : clay_parity(code.k, code.m, code.w, chunks.data(), data, &chunks[data], parity);
    expect(status == CLAY_DONE, "an encoding of ours");
  }

  void decode(const set<int> &lost) {
    Bytes present(code.numbers.chunks, 1);
    for (int c : lost) present[c] = 0;
    expect(clay_recover(code.k, code.m, code.w, present.data(), present.size(), chunks.data(), chunks.size()) == CLAY_DONE, "clay_recover");
  }

  void repair() {
    uint32_t status = code.has_fewer()
                          ? clay_rebuild_with_helpers(code.k, code.m, code.d, code.w, 0, helpers.data(), helpers.size(), parts.data(),
                                                      parts.size(), rebuilt.data(), rebuilt.size())
                          : clay_rebuild(code.k, code.m, code.w, 0, parts.data(), parts.size(), rebuilt.data(), rebuilt.size());
    expect(status == CLAY_DONE, "a repair of ours");
  }

  void check() {
    for (auto &lost : code.has_fewer() ? vector<set<int>>() : vector<set<int>>{code.column, code.spread}) {
      for (int c : lost) memset(&chunks[c * code.chunk_len()], 0, code.chunk_len());
      decode(lost);
      expect(chunks == wanted, "a decoding of ours is wrong");
    }
    repair();
    expect(memcmp(rebuilt.data(), wanted.data(), rebuilt.size()) == 0, "a repair of ours is wrong");
  }
};

static void add_ours(vector<Operation> &operations, const Code &code) {
  auto ours = make_shared<OurCode>(code);
  ours->check();
  double bytes = code.stripe_len(), lost_bytes = code.chunk_len();
  auto add = [&](const string &what, double bytes, function<void()> call) { operations.push_back({"clay_c", what, bytes, call, {}}); };
  add("encode", bytes, [=] { ours->encode(); });
  if (!code.has_fewer()) {
    add("decode, a column", bytes, [=] { ours->decode(code.column); });
    add("decode, spread", bytes, [=] { ours->decode(code.spread); });
  }
  add("repair of one", lost_bytes, [=] { ours->repair(); });
}

// ---- The table

static const Operation &find(const vector<Operation> &operations, const string &coder, const string &what) {
  for (auto &operation : operations)
    if (operation.coder == coder && operation.what == what) return operation;
  end_with("no operation " + what);
}

static void print(const Code &code, const vector<Operation> &operations) {
  printf("\n%u+%u, %u helpers, subchunks of %u bytes, a stripe of %zu KiB\n", code.k, code.m, code.d, code.w, code.stripe_len() / 1024);
  printf("  %-18s %-15s %8s   of Ceph's: median (min..max)\n", "", "", "GB/s");
  for (const string what : kinds) {
    if (code.has_fewer() && what.rfind("decode", 0) == 0) continue;
    const auto &ceph = find(operations, "Ceph clay(isa)", what);
    for (const auto &operation : operations) {
      if (operation.what != what) continue;
      vector<double> ratios;
      for (size_t round = 0; round < ceph.seconds.size(); round++)
        ratios.push_back(operation.bytes / operation.seconds[round] * ceph.seconds[round] / ceph.bytes);
      printf("  %-18s %-15s %8.3f   %.2f (%.2f..%.2f)\n", what.c_str(), operation.coder.c_str(),
             operation.bytes / median(operation.seconds) / 1e9, median(ratios), *std::min_element(ratios.begin(), ratios.end()),
             *std::max_element(ratios.begin(), ratios.end()));
    }
  }
  fflush(stdout);
}

// The code that a word names: K+M:W, where all other chunks help, or K+M/D:W.
static Code code_named(const char *word) {
  uint32_t k, m, d, w;
  if (sscanf(word, "%u+%u:%u", &k, &m, &w) == 3) return code_of(k, m, k + m - 1, w);
  expect(sscanf(word, "%u+%u/%u:%u", &k, &m, &d, &w) == 4, string("no code: ") + word);
  return code_of(k, m, d, w);
}

// code_peers PLUGINS ROUNDS MILLISECONDS CODE..
int main(int count, char **words) {
  expect(count > 4, "too few words");
  // freed memory stays with the process, for all coders alike
  mallopt(M_MMAP_THRESHOLD, 1 << 30);
  mallopt(M_TRIM_THRESHOLD, INT32_MAX);
  mallopt(M_TOP_PAD, 64 << 20);
  expect(start_ceph(), "Ceph's library can't be started");
  for (int i = 4; i < count; i++) {
    Code code = code_named(words[i]);
    vector<Operation> operations;
    add_ceph(operations, code, words[1]);
    add_isal(operations, code);
    add_ours(operations, code);
    measure(operations, atoi(words[2]), atof(words[3]) / 1000);
    print(code, operations);
  }
  // without Ceph's end, which wants a cluster
  _Exit(0);
}
