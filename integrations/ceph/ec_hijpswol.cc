// An erasure code plugin of Ceph 16.2 over the library for C (include/clay.h). Profile: plugin=hijpswol, k, m, d.
//
// Nothing here codes: it reads the profile, plans what is read, and hands chunks to the library. A chunk has one subchunk for each layer of
// the code, and Ceph's numbers of chunks are the library's. A call that fails writes nothing.
#include <algorithm>
#include <cerrno>
#include <iterator>
#include <new>

#include "coder.h"
#include "erasure_code.h"

using ceph::bufferlist;
using ceph::Chunks;
using ceph::ErasureCodeInterfaceRef;
using ceph::ErasureCodePluginRegistry;
using ceph::ErasureCodeProfile;
using ceph::Runs;
using ceph::SubChunks;
using std::ostream;
using std::set;
using std::string;
using std::vector;

namespace {

// What is thrown here would end the daemon that calls, so it becomes an error.
template <typename Call> int guarded(Call call) {
  try {
    return call();
  } catch (const std::bad_alloc &) {
    return -ENOMEM;
  } catch (...) {
    return -EIO;
  }
}

int refuse(ostream *why, const string &cause) {
  if (why) *why << "hijpswol: " << cause << std::endl;
  return -EINVAL;
}

// Reads the number that the profile has by a name. Where it has none, `otherwise` is put there, so that the profile tells what is used.
int read_number(ErasureCodeProfile &profile, const string &name, unsigned otherwise, unsigned *number, ostream *why) {
  string &text = profile[name];
  if (text.empty()) {
    text = std::to_string(*number = otherwise);
    return 0;
  }
  bool is_short = text.size() <= 4, has_digits = text.find_first_not_of("0123456789") == string::npos;
  if (!is_short || !has_digits) return refuse(why, name + "=" + text + " isn't a number of at most four digits");
  *number = std::stoul(text);
  return 0;
}

set<int> numbers_of(const Chunks &chunks) {
  set<int> numbers;
  for (auto &[chunk, list] : chunks) numbers.insert(chunk);
  return numbers;
}

bool includes(const set<int> &some, const set<int> &others) { return std::includes(some.begin(), some.end(), others.begin(), others.end()); }

bool have_length(const Chunks &chunks, size_t len) {
  return std::all_of(chunks.begin(), chunks.end(), [len](auto &chunk) { return chunk.second.length() == len; });
}

bufferlist chunk_of(const bufferlist &chunks, unsigned number, size_t chunk_len) {
  bufferlist chunk;
  chunk.substr_of(chunks, number * chunk_len, chunk_len);
  return chunk;
}

// Consecutive layers are one run.
Runs runs_of(const vector<uint32_t> &layers) {
  Runs runs;
  for (int layer : layers) {
    if (!runs.empty() && runs.back().first + runs.back().second == layer) runs.back().second++;
    else runs.push_back({layer, 1});
  }
  return runs;
}

// What a repair of a chunk reads.
struct Repair {
  vector<int> column; // the other chunks of its column: each must help
  vector<int> others; // of these those are taken that are there, by rising number
  Runs runs;          // of each helper
};

class ErasureCode : public ceph::ErasureCodeInterface {
  const string directory; // where Ceph's plugins lie
  ErasureCodeProfile profile;
  Coder coder;
  unsigned k = 0, m = 0, n = 0, layers = 0;
  vector<Repair> repairs;         // of each chunk
  vector<int> mapping;            // empty: chunk i is Ceph's chunk i
  ErasureCodeInterfaceRef placer; // Ceph's own jerasure of the same k and m: it makes the rules of placement

public:
  explicit ErasureCode(const string &directory) : directory(directory) {}

  int init(ErasureCodeProfile &given, ostream *why) override {
    return guarded([&] {
      int error = set_code(given, why);
      if (!error) error = set_repairs();
      if (!error) error = set_placer(given, why);
      if (!error) profile = given;
      return error;
    });
  }

  const ErasureCodeProfile &get_profile() const override { return profile; }
  unsigned get_chunk_count() const override { return n; }
  unsigned get_data_chunk_count() const override { return k; }
  unsigned get_coding_chunk_count() const override { return m; }
  int get_sub_chunk_count() override { return layers; }
  const vector<int> &get_chunk_mapping() const override { return mapping; }

  int create_rule(const string &name, CrushWrapper &map, ostream *why) const override {
    return guarded([&] { return placer->create_rule(name, map, why); });
  }

  // The least multiple of the subchunks whose k-fold holds the object.
  unsigned get_chunk_size(unsigned object_size) const override {
    uint64_t data = (uint64_t(object_size) + k - 1) / k;
    return (data + layers - 1) / layers * layers;
  }

  int minimum_to_decode(const set<int> &want, const set<int> &available, SubChunks *minimum) override {
    return guarded([&] { return plan(want, available, minimum); });
  }

  // As of Ceph's own codes, costs don't count.
  int minimum_to_decode_with_cost(const set<int> &want, const std::map<int, int> &available, set<int> *minimum) override {
    return guarded([&] {
      set<int> numbers;
      for (auto &[chunk, cost] : available) numbers.insert(chunk);
      SubChunks read;
      int error = plan(want, numbers, &read);
      if (error) return error;
      for (auto &[chunk, runs] : read) minimum->insert(chunk);
      return 0;
    });
  }

  int encode(const set<int> &want, const bufferlist &in, Chunks *encoded) override {
    return guarded([&] { return encode_object(want, in, encoded); });
  }

  int encode_chunks(const set<int> &, Chunks *encoded) override {
    return guarded([&] { return encode_in_place(encoded); });
  }

  int decode(const set<int> &want, const Chunks &chunks, Chunks *decoded, int chunk_size) override {
    return guarded([&] { return decode_wanted(want, chunks, decoded, chunk_size); });
  }

  int decode_chunks(const set<int> &, const Chunks &chunks, Chunks *decoded) override {
    return guarded([&] { return decode_in_place(chunks, decoded); });
  }

  int decode_concat(const Chunks &chunks, bufferlist *decoded) override {
    return guarded([&] {
      set<int> data;
      for (unsigned chunk = 0; chunk < k; chunk++) data.insert(chunk);
      Chunks made;
      int error = decode_wanted(data, chunks, &made, 0);
      if (error) return error;
      for (auto &[chunk, list] : made) decoded->claim_append(list);
      return 0;
    });
  }

private:
  // ---- The profile

  int set_code(ErasureCodeProfile &given, ostream *why) {
    unsigned d = 0;
    int error = read_number(given, "k", 4, &k, why);
    if (!error) error = read_number(given, "m", 2, &m, why);
    if (error) return error;
    if (k < 2) return refuse(why, "k=" + std::to_string(k) + ", and 2 is the least");
    if (m < 2 || m > 8) return refuse(why, "m=" + std::to_string(m) + ", and 2 to 8 are possible");
    error = read_number(given, "d", k + m - 1, &d, why);
    if (!error) error = check_helpers(d, why);
    if (!error) error = check_mapping(given, why);
    if (error) return error;
    string told = "k=" + std::to_string(k) + " with m=" + std::to_string(m) + " and d=" + std::to_string(d);
    if (coder.set(k, m, d)) return refuse(why, told + " makes more than 1024 subchunks");
    n = coder.chunk_count(), layers = coder.layer_count();
    return 0;
  }

  int check_helpers(unsigned d, ostream *why) const {
    if (d > k && d < k + m) return 0;
    string all = "k+m-1=" + std::to_string(k + m - 1);
    return refuse(why, "d=" + std::to_string(d) + " helpers of a repair are impossible: more than k and at most " + all);
  }

  static int check_mapping(const ErasureCodeProfile &given, ostream *why) {
    return given.count("mapping") ? refuse(why, "mapping isn't supported: chunk i is shard i") : 0;
  }

  int set_repairs() {
    for (unsigned lost = 0; lost < n; lost++) {
      vector<uint32_t> read;
      int error = coder.repair_layers(lost, &read);
      if (error) return error;
      repairs.push_back(repair_of(lost));
      repairs.back().runs = runs_of(read);
    }
    return 0;
  }

  // Where `rows` helpers can't be read, fewer than k are left. Ceph 16.2 then asks for a new plan and reads whole what that has besides. Were
  // it a plan of parts, their first bytes would be handed over as parts, and wrong bytes made of them. So, other than with Ceph's clay, only
  // `rows - 1` chunks more than are taken may help: after so many errors no plan of parts is left.
  Repair repair_of(unsigned lost) const {
    Repair repair;
    for (unsigned chunk = 0; chunk < n; chunk++)
      if (chunk != lost) (coder.column_of(chunk) == coder.column_of(lost) ? repair.column : repair.others).push_back(chunk);
    size_t most = coder.helper_count() - repair.column.size() + coder.row_count() - 1;
    if (repair.others.size() > most) repair.others.resize(most);
    return repair;
  }

  static void copy_crush(const ErasureCodeProfile &from, ErasureCodeProfile &to) {
    for (auto &[name, value] : from)
      if (name.rfind("crush-", 0) == 0) to.emplace(name, value);
  }

  // The placement is no part of the code, and CrushWrapper is declared in no package.
  int set_placer(ErasureCodeProfile &given, ostream *why) {
    ErasureCodeProfile own = {{"plugin", "jerasure"}, {"technique", "reed_sol_van"}, {"k", given["k"]}, {"m", given["m"]}};
    copy_crush(given, own);
    int error = ErasureCodePluginRegistry::singleton.factory("jerasure", directory, own, &placer, why);
    if (!error) copy_crush(placer->get_profile(), given);
    return error;
  }

  // ---- Plans

  bool are_chunks(const set<int> &numbers) const { return numbers.empty() || (*numbers.begin() >= 0 && *numbers.rbegin() < int(n)); }

  // The helpers of a repair by parts, in Ceph's clay's choice; none where chunks have to be read whole.
  set<int> helpers_of(const set<int> &want, const set<int> &available) const {
    if (want.size() != 1 || available.count(*want.begin())) return {};
    const Repair &repair = repairs[*want.begin()];
    set<int> helpers(repair.column.begin(), repair.column.end());
    if (!includes(available, helpers)) return {};
    for (int chunk : repair.others)
      if (helpers.size() < coder.helper_count() && available.count(chunk)) helpers.insert(chunk);
    return helpers.size() == coder.helper_count() ? helpers : set<int>();
  }

  int plan(const set<int> &want, const set<int> &available, SubChunks *minimum) const {
    if (!are_chunks(want) || !are_chunks(available)) return -EINVAL;
    set<int> helpers = helpers_of(want, available);
    for (int chunk : helpers) (*minimum)[chunk] = repairs[*want.begin()].runs;
    if (!helpers.empty()) return 0;
    set<int> read;
    std::set_intersection(want.begin(), want.end(), available.begin(), available.end(), std::inserter(read, read.end()));
    if (read.size() < want.size()) {
      if (available.size() < k) return -EIO;
      for (int chunk : available)
        if (read.size() < k) read.insert(chunk);
    }
    for (int chunk : read) (*minimum)[chunk] = {{0, int(layers)}};
    return 0;
  }

  // ---- Encoding

  int encode_object(const set<int> &want, const bufferlist &in, Chunks *encoded) const {
    size_t chunk_len = get_chunk_size(in.length());
    if (!are_chunks(want)) return -EINVAL;
    bufferlist stripe = in, parity; // shares the bytes
    stripe.append_zero(k * chunk_len - in.length());
    int error = coder.parity(&stripe, &parity);
    if (error) return error;
    for (int chunk : want) {
      bool is_data = unsigned(chunk) < k;
      (*encoded)[chunk] = is_data ? chunk_of(stripe, chunk, chunk_len) : chunk_of(parity, chunk - k, chunk_len);
    }
    return 0;
  }

  // `encoded` has all chunks. Those of parity are written where they stand, as Ceph asks, which is a copy of what the library wrote.
  int encode_in_place(Chunks *encoded) const {
    set<int> numbers = numbers_of(*encoded);
    if (numbers.size() != n || !are_chunks(numbers)) return -EINVAL;
    size_t chunk_len = encoded->begin()->second.length();
    if (!have_length(*encoded, chunk_len)) return -EINVAL;
    bufferlist stripe, parity;
    for (unsigned chunk = 0; chunk < k; chunk++) stripe.append(encoded->at(chunk));
    int error = coder.parity(&stripe, &parity);
    if (error) return error;
    for (unsigned chunk = k; chunk < n; chunk++) put(chunk_of(parity, chunk - k, chunk_len), encoded->at(chunk));
    return 0;
  }

  static void put(const bufferlist &from, bufferlist &to) { from.begin().copy(from.length(), to.c_str()); }

  // ---- Decoding

  // Of parts it makes a chunk, where they are those of a plan. Others are refused: they are no chunks, and bytes made of them would be wrong.
  // After a read error Ceph 16.2 cuts the parts of `rows` stripes as one chunk, which can't be seen here. It sees it itself, by the length of
  // what it then has.
  int decode_wanted(const set<int> &want, const Chunks &chunks, Chunks *decoded, int chunk_size) const {
    set<int> available = numbers_of(chunks);
    if (!are_chunks(want) || !are_chunks(available)) return -EINVAL;
    if (chunk_size > 0 && !have_length(chunks, chunk_size)) {
      if (helpers_of(want, available) != available || !have_length(chunks, coder.part_len(chunk_size))) return -EINVAL;
      return repair(*want.begin(), chunks, decoded, chunk_size);
    }
    Chunks missing;
    int error = includes(available, want) ? 0 : coder.recover(chunks, &missing);
    if (error) return error;
    for (int chunk : want) (*decoded)[chunk] = available.count(chunk) ? chunks.at(chunk) : missing.at(chunk);
    return 0;
  }

  int repair(unsigned lost, const Chunks &parts, Chunks *decoded, size_t chunk_len) const {
    bufferlist chunk;
    int error = coder.rebuild(lost, parts, &chunk);
    if (error) return error;
    if (chunk.length() != chunk_len) return -EINVAL;
    (*decoded)[lost] = chunk;
    return 0;
  }

  // `decoded` has all chunks. Those that `chunks` lacks are written where they stand, as Ceph asks, which is a copy of what the library wrote.
  int decode_in_place(const Chunks &chunks, Chunks *decoded) const {
    set<int> numbers = numbers_of(*decoded);
    if (numbers.size() != n || !are_chunks(numbers) || !are_chunks(numbers_of(chunks))) return -EINVAL;
    if (chunks.size() == n) return 0;
    Chunks missing;
    int error = coder.recover(chunks, &missing);
    if (error) return error;
    for (auto &[chunk, list] : missing)
      if (decoded->at(chunk).length() != list.length()) return -EINVAL;
    for (auto &[chunk, list] : missing) put(list, decoded->at(chunk));
    return 0;
  }
};

class Plugin : public ceph::ErasureCodePlugin {
  int factory(const string &directory, ErasureCodeProfile &profile, ErasureCodeInterfaceRef *code, ostream *why) override {
    return guarded([&] {
      auto made = std::make_shared<ErasureCode>(directory);
      int error = made->init(profile, why);
      if (!error) *code = made;
      return error;
    });
  }
};

} // namespace

#define EXPORTED extern "C" __attribute__((visibility("default")))

// A daemon of another version refuses the plugin by this.
EXPORTED const char *__erasure_code_version() { return CEPH_VERSION; }

EXPORTED int __erasure_code_init(char *name, char *) {
  return guarded([&] { return ErasureCodePluginRegistry::singleton.add(name, new Plugin()); });
}
