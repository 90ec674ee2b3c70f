// Calls erasure code plugins as an osd does, in one process. `check` and `speed` build it.
//   drive losses PLUGINS K M UNIT [EACH [D]]  each lost chunk, and each set of up to M + 1 of them, or each EACHth; a repair has D helpers
//   drive refusals PLUGINS                    profiles that are refused, by their causes, and some that aren't
//   drive failures PLUGINS                    calls of the library that fail (failing_library.cc), and memory that is short
//   drive speed PLUGINS K M UNIT PLUGIN..     encoding, decoding and repair, by alternating slices of time
// PLUGINS is a folder of libec_*.so, UNIT a chunk's length. Ends with 1 and a line where something isn't as it should be.
#include <algorithm>
#include <cstdio>
#include <cstdlib>
#include <cstring>
#include <ctime>
#include <functional>
#include <iostream>
#include <random>
#include <sstream>
#include <malloc.h>
#include <sys/resource.h>

#include "registry.h"

using ceph::bufferlist;
using ceph::Chunks;
using ceph::ErasureCodeProfile;
using ceph::Runs;
using ceph::SubChunks;
using std::set;
using std::string;
using std::vector;
using Code = ceph::ErasureCodeInterfaceRef;

[[noreturn]] static void end_with(const string &message) {
  std::cerr << "drive: " << message << std::endl;
  _Exit(1);
}

static void expect(bool holds, const string &what) {
  if (!holds) end_with(what);
}

static void expect_same(const bufferlist &got, const bufferlist &wanted, const string &what) {
  expect(got.contents_equal(wanted), what + ": the bytes are wrong");
}

// ---- Codes

static int make(ErasureCodeProfile profile, const string &directory, Code *code, string *cause) {
  std::ostringstream why;
  int error = ceph::ErasureCodePluginRegistry::singleton.factory(profile.at("plugin"), directory, profile, code, &why);
  *cause = why.str();
  return error;
}

static Code code_of(const string &plugin, const string &directory, int k, int m, int d = 0) {
  ErasureCodeProfile profile = {{"plugin", plugin}, {"k", std::to_string(k)}, {"m", std::to_string(m)}};
  if (d) profile["d"] = std::to_string(d);
  if (plugin == "jerasure" || plugin == "isa") profile["technique"] = "reed_sol_van";
  if (plugin == "clay") profile["scalar_mds"] = m > 4 ? "jerasure" : "isa"; // ISA-L's has at most 4 parity chunks
  Code code;
  string cause;
  int error = make(profile, directory, &code, &cause);
  expect(error == 0 && code, plugin + ": " + cause);
  return code;
}

// ---- Chunks

static ceph::bufferptr room(size_t len, char fill) {
  ceph::bufferptr buffer(ceph::buffer::create_aligned(len, 4096));
  memset(buffer.c_str(), fill, len);
  return buffer;
}

static bufferlist random_list(size_t len, int pieces, unsigned seed) {
  std::mt19937 random(seed);
  bufferlist list;
  for (int i = 0; i < pieces; i++) {
    size_t from = len * i / pieces, to = len * (i + 1) / pieces;
    ceph::bufferptr piece = room(to - from, 0);
    for (size_t at = 0; at < to - from; at++) piece.c_str()[at] = random();
    list.append(piece);
  }
  return list;
}

static set<int> first(int count) {
  set<int> numbers;
  for (int i = 0; i < count; i++) numbers.insert(i);
  return numbers;
}

static set<int> without(const set<int> &numbers, const set<int> &others) {
  set<int> left;
  std::set_difference(numbers.begin(), numbers.end(), others.begin(), others.end(), std::inserter(left, left.end()));
  return left;
}

static Chunks only(const Chunks &chunks, const set<int> &numbers) {
  Chunks some;
  for (int chunk : numbers) some[chunk] = chunks.at(chunk);
  return some;
}

// What a plan reads of the chunks, cut as an osd cuts it (ECBackend::handle_sub_read).
static Chunks parts_of(const Chunks &chunks, const SubChunks &plan, unsigned subchunk_len) {
  Chunks parts;
  for (auto &[chunk, runs] : plan)
    for (auto &[begin, count] : runs) {
      bufferlist piece;
      piece.substr_of(chunks.at(chunk), begin * subchunk_len, count * subchunk_len);
      parts[chunk].claim_append(piece);
    }
  return parts;
}

static vector<set<int>> sets_of(int n, int most) {
  vector<set<int>> sets;
  for (unsigned bits = 1; bits < 1u << n; bits++) {
    if (__builtin_popcount(bits) > most) continue;
    set<int> some;
    for (int i = 0; i < n; i++)
      if (bits >> i & 1) some.insert(i);
    sets.push_back(some);
  }
  return sets;
}

// ---- Losses

// A stripe with its chunks.
struct Stripe {
  Code code;
  int k, m, n, layers;
  int d, rows; // helpers of a repair, and rows of the grid: a helper gives one in `rows` of its subchunks
  unsigned chunk_len;
  set<int> all;
  bufferlist in;
  Chunks chunks;

  Stripe(Code code, unsigned unit, int pieces)
      : code(code), k(code->get_data_chunk_count()), m(code->get_coding_chunk_count()), n(k + m), layers(code->get_sub_chunk_count()),
        d(helper_count(code->get_profile(), n)), rows(d - k + 1), chunk_len(code->get_chunk_size(unit * k)), all(first(n)),
        in(random_list(size_t(chunk_len) * k, pieces, pieces)) {
    expect(code->encode(all, in, &chunks) == 0 && numbers(chunks) == all, "encode");
  }

  static int helper_count(const ErasureCodeProfile &profile, int n) { return profile.count("d") ? std::stoi(profile.at("d")) : n - 1; }

  // The other chunks of a chunk's column, by clay.h.
  set<int> column(int chunk) const {
    int virtual_nodes = (rows - n % rows) % rows;
    auto column_of = [&](int i) { return (i < k ? i : i + virtual_nodes) / rows; };
    set<int> others;
    for (int i : all)
      if (i != chunk && column_of(i) == column_of(chunk)) others.insert(i);
    return others;
  }

  static set<int> numbers(const Chunks &chunks) {
    set<int> all;
    for (auto &[chunk, list] : chunks) all.insert(chunk);
    return all;
  }

  // All chunks in buffers of their own; those of `scribbled` have other bytes.
  Chunks places(const set<int> &scribbled) const {
    Chunks places;
    for (int chunk : all) {
      ceph::bufferptr own = room(chunk_len, 7);
      if (!scribbled.count(chunk)) chunks.at(chunk).begin().copy(chunk_len, own.c_str());
      places[chunk].append(own);
    }
    return places;
  }
};

static void check_all(const Stripe &s, const Chunks &got, const string &what) {
  expect(Stripe::numbers(got) == s.all, what + ": other chunks");
  for (int chunk : s.all) expect_same(got.at(chunk), s.chunks.at(chunk), what + " of chunk " + std::to_string(chunk));
}

static void check_encoding(const Stripe &s) {
  bufferlist whole;
  for (int chunk = 0; chunk < s.k; chunk++) whole.append(s.chunks.at(chunk));
  expect_same(whole, s.in, "data chunks");
  Chunks some;
  expect(s.code->encode({0, s.n - 1}, s.in, &some) == 0 && Stripe::numbers(some) == set<int>{0, s.n - 1}, "encode of two chunks");
  expect_same(some.at(s.n - 1), s.chunks.at(s.n - 1), "encode of two chunks");
  Chunks places = s.places(without(s.all, first(s.k)));
  expect(s.code->encode_chunks(s.all, &places) == 0, "encode_chunks");
  check_all(s, places, "encode_chunks");
}

// Data chunks of an input in one buffer, and chunks that are there and wanted, are handed on without a copy.
static void check_shared(const Stripe &s) {
  for (int chunk = 0; s.in.is_contiguous() && chunk < s.k; chunk++)
    expect(s.chunks.at(chunk).front().c_str() == s.in.front().c_str() + size_t(chunk) * s.chunk_len, "encode copies a data chunk");
  Chunks every;
  expect(s.code->decode(s.all, only(s.chunks, without(s.all, {0})), &every, 0) == 0, "decode");
  for (int chunk = 1; chunk < s.n; chunk++)
    expect(every.at(chunk).front().c_str() == s.chunks.at(chunk).front().c_str(), "decode copies a chunk that is there");
}

static SubChunks plan_of(const Stripe &s, const set<int> &want, const set<int> &available, int wanted_status) {
  SubChunks plan;
  std::map<int, int> costs;
  for (int chunk : available) costs[chunk] = chunk;
  set<int> least, read;
  int status = s.code->minimum_to_decode(want, available, &plan);
  expect(status == wanted_status, "minimum_to_decode ends with " + std::to_string(status));
  expect(s.code->minimum_to_decode_with_cost(want, costs, &least) == wanted_status, "minimum_to_decode_with_cost");
  for (auto &[chunk, runs] : plan) read.insert(chunk);
  expect(read == least, "minimum_to_decode_with_cost has other chunks");
  return plan;
}

// Whether a plan is one of parts, of the helpers of a repair of a lost chunk. It is one of k whole chunks otherwise.
static bool is_of_parts(const Stripe &s, int lost, const SubChunks &plan) {
  set<int> read;
  for (auto &[chunk, runs] : plan) read.insert(chunk);
  bool has_parts = plan.begin()->second != Runs{{0, s.layers}};
  for (auto &[chunk, runs] : plan) {
    int count = 0;
    for (auto &[begin, of_run] : runs) count += of_run;
    expect(count == (has_parts ? s.layers / s.rows : s.layers), "a plan of other subchunks");
  }
  expect(plan.size() == unsigned(has_parts ? s.d : s.k), "a plan of other chunks");
  expect(!has_parts || without(s.column(lost), read).empty(), "a plan without the lost chunk's column");
  return has_parts;
}

static void check_loss(const Stripe &s, const set<int> &lost) {
  set<int> left = without(s.all, lost);
  SubChunks plan = plan_of(s, lost, left, 0);
  expect(is_of_parts(s, *lost.begin(), plan) == (lost.size() == 1), "a plan of parts where one chunk is lost, else not");
  Chunks made, every, given = only(s.chunks, left), places = s.places(lost);
  expect(s.code->decode(lost, parts_of(s.chunks, plan, s.chunk_len / s.layers), &made, s.chunk_len) == 0, "decode by plan");
  expect(Stripe::numbers(made) == lost, "decode by plan: other chunks");
  for (int chunk : lost) expect_same(made.at(chunk), s.chunks.at(chunk), "decode by plan");
  expect(s.code->decode(s.all, given, &every, 0) == 0, "decode");
  check_all(s, every, "decode");
  bufferlist data;
  expect(s.code->decode_concat(given, &data) == 0, "decode_concat");
  expect_same(data, s.in, "decode_concat");
  expect(s.code->decode_chunks(lost, given, &places) == 0, "decode_chunks");
  check_all(s, places, "decode_chunks");
}

// One chunk is wanted of several that are lost. Whether it is made of parts: where enough others and its column are there, and not always where
// more than two are lost.
static bool check_one_of(const Stripe &s, const set<int> &lost) {
  int wanted = *lost.rbegin();
  set<int> left = without(s.all, lost);
  SubChunks plan = plan_of(s, {wanted}, left, 0);
  bool may_be = int(left.size()) >= s.d && without(s.column(wanted), left).empty(), is = is_of_parts(s, wanted, plan);
  expect(is ? may_be : !may_be || lost.size() > 2, "a plan for one of several");
  Chunks made;
  expect(s.code->decode({wanted}, parts_of(s.chunks, plan, s.chunk_len / s.layers), &made, s.chunk_len) == 0, "decode of one of several");
  expect_same(made.at(wanted), s.chunks.at(wanted), "decode of one of several");
  return is;
}

// Where one chunk is lost, the plan is that of Ceph's clay, which has the same grid. Ceph's is one of whole chunks where the column has virtual
// nodes, and it takes them for chunks that aren't there.
static void check_like_clay(const Stripe &s, Code clay) {
  expect(clay->get_sub_chunk_count() == s.layers, "the subchunks aren't as many as of Ceph's clay");
  for (int lost : s.all) {
    SubChunks plan = plan_of(s, {lost}, without(s.all, {lost}), 0), other;
    expect(clay->minimum_to_decode({lost}, without(s.all, {lost}), &other) == 0, "minimum_to_decode of Ceph's clay");
    expect(plan == other || other.begin()->second == Runs{{0, s.layers}}, "a plan that isn't that of Ceph's clay");
  }
}

// Where `rows` helpers can't be read, fewer than k parts are left. Ceph 16.2 then asks for a new plan and reads whole what that has besides. Were
// it a plan of parts, their first bytes would be handed over as parts.
static void check_read_errors(const Stripe &s) {
  for (int lost : s.all) {
    SubChunks plan = plan_of(s, {lost}, without(s.all, {lost}), 0);
    set<int> read;
    for (auto &[chunk, runs] : plan) read.insert(chunk);
    vector<int> helpers(read.begin(), read.end());
    for (size_t at = 0; s.rows < s.m && at + s.rows <= helpers.size(); at++) {
      set<int> failed(helpers.begin() + at, helpers.begin() + at + s.rows);
      expect(!is_of_parts(s, lost, plan_of(s, {lost}, without(without(s.all, {lost}), failed), 0)), "a plan of parts after read errors");
    }
  }
}

static void check_too_many(const Stripe &s, const set<int> &lost) {
  Chunks made, given = only(s.chunks, without(s.all, lost)), places = s.places(lost), before = s.places(lost);
  plan_of(s, lost, without(s.all, lost), -EIO);
  bufferlist data;
  expect(s.code->decode(lost, given, &made, s.chunk_len) == -EIO && made.empty(), "decode of too few");
  expect(s.code->decode_chunks(lost, given, &places) == -EIO, "decode_chunks of too few");
  for (int chunk : s.all) expect_same(places.at(chunk), before.at(chunk), "decode_chunks of too few");
  bool has_data = *lost.begin() >= s.k;
  expect(s.code->decode_concat(given, &data) == (has_data ? 0 : -EIO) && (has_data || data.length() == 0), "decode_concat of too few");
}

// Parts that aren't those of a plan: fewer, uneven, shorter, or beside whole chunks.
static void check_wrong_parts(const Stripe &s) {
  SubChunks plan = plan_of(s, {0}, without(s.all, {0}), 0);
  const Chunks parts = parts_of(s.chunks, plan, s.chunk_len / s.layers);
  int last = parts.rbegin()->first;
  vector<Chunks> wrong(4, parts);
  wrong[0].erase(last);
  wrong[1].at(1).append("x", 1);
  wrong[2].at(1) = s.chunks.at(1);
  for (auto &[chunk, list] : wrong[3]) list.splice(0, s.chunk_len / s.layers);
  if (s.d < s.n - 1) { // a helper too many, and one in the place of one of the lost chunk's column
    wrong.resize(6, parts);
    wrong[4][last + 1] = wrong[5][last + 1] = parts.at(last);
    wrong[5].erase(*s.column(0).begin());
  }
  for (size_t i = 0; i < wrong.size(); i++) {
    Chunks made;
    expect(s.code->decode({0}, wrong[i], &made, s.chunk_len) == -EINVAL && made.empty(), "wrong parts " + std::to_string(i));
  }
  Chunks made, fewer = parts;
  fewer.erase(1);
  expect(s.code->decode({0, 1}, fewer, &made, s.chunk_len) == -EINVAL && made.empty(), "parts for two");
  expect(s.code->decode({1}, parts, &made, s.chunk_len) == -EINVAL && made.empty(), "a part that is there");
}

static void check_wrong_calls(const Stripe &s) {
  SubChunks plan;
  Chunks made, uneven = only(s.chunks, without(s.all, {0})), few = only(s.chunks, {0, 1});
  expect(s.code->minimum_to_decode({s.n}, s.all, &plan) == -EINVAL && s.code->minimum_to_decode({-1}, s.all, &plan) == -EINVAL, "no such chunk");
  expect(s.code->minimum_to_decode({0}, {1, s.n}, &plan) == -EINVAL && plan.empty(), "no such chunk is there");
  expect(s.code->encode({s.n}, s.in, &made) == -EINVAL, "encode of no such chunk");
  expect(s.code->encode(s.all, bufferlist(), &made) == -EINVAL, "encode of nothing");
  expect(s.code->decode({s.n}, s.chunks, &made, s.chunk_len) == -EINVAL, "decode of no such chunk");
  expect(s.code->decode({0}, {}, &made, s.chunk_len) == -EIO, "decode of no chunks");
  uneven.at(1).append("x", 1);
  expect(s.code->decode({0}, uneven, &made, 0) == -EINVAL, "decode of uneven chunks");
  expect(s.code->encode_chunks(s.all, &few) == -EINVAL && s.code->decode_chunks({}, few, &few) == -EINVAL, "chunks without a place");
  expect(made.empty(), "a call that failed made something");
  expect(s.code->minimum_to_decode({0}, s.all, &plan) == 0 && plan == SubChunks{{0, {{0, s.layers}}}}, "a chunk that is there");
}

static void check_odd_length(const Stripe &s, unsigned len) {
  bufferlist in = random_list(len, len > 2 ? 2 : 1, len), back, front;
  Chunks chunks;
  expect(s.code->encode(s.all, in, &chunks) == 0, "encode of an odd length");
  expect(chunks.at(0).length() == s.code->get_chunk_size(len), "chunks of an odd length");
  expect(s.code->decode_concat(only(chunks, without(s.all, {0, s.n - 1})), &back) == 0 && back.length() >= len, "decode of an odd length");
  front.substr_of(back, 0, len);
  expect_same(front, in, "an odd length");
  for (unsigned at = len; at < back.length(); at++) expect(back[at] == 0, "the padding isn't zeros");
}

static void losses(const string &directory, int k, int m, unsigned unit, size_t each, int d) {
  Code code = code_of("hijpswol", directory, k, m, d), clay = code_of("clay", directory, k, m, d);
  expect(code->get_chunk_count() == unsigned(k + m) && code->get_data_chunk_count() == unsigned(k), "counts");
  expect(code->get_coding_chunk_count() == unsigned(m) && code->get_chunk_mapping().empty(), "counts");
  int decoded = 0, refused = 0, of_parts = 0;
  vector<set<int>> sets = sets_of(k + m, m + 1);
  for (int pieces : {1, 3, k}) {
    Stripe s(code, unit, pieces);
    check_encoding(s);
    check_shared(s);
    check_like_clay(s, clay);
    check_read_errors(s);
    check_wrong_parts(s);
    check_wrong_calls(s);
    for (size_t i = 0; i < sets.size(); i++) {
      if (i % each != 0 && sets[i].size() > 1) continue;
      bool is_much = sets[i].size() > unsigned(m);
      is_much ? check_too_many(s, sets[i]) : check_loss(s, sets[i]);
      if (!is_much && sets[i].size() > 1) of_parts += check_one_of(s, sets[i]);
      (is_much ? refused : decoded)++;
    }
  }
  Stripe s(code, unit, 1);
  for (unsigned len : {1u, 17u, s.chunk_len * k - 1, s.chunk_len * k + 1}) check_odd_length(s, len);
  printf("%d+%d, %d helpers, chunks of %u bytes, %d subchunks, inputs in 1, 3 and %d pieces: %d sets of lost chunks decoded, %d refused; of %d sets "
         "of several one chunk was made of parts\n",
         k, m, s.d, s.chunk_len, s.layers, k, decoded / 3, refused / 3, of_parts / 3);
}

// ---- Refusals and failures

static void refusals(const string &directory) {
  struct Refusal {
    ErasureCodeProfile profile;
    string cause;
  };
  const vector<Refusal> all = {
      {{{"k", "1"}}, "k=1, and 2 is the least"},
      {{{"k", "0"}}, "k=0, and 2 is the least"},
      {{{"m", "1"}}, "m=1, and 2 to 8 are possible"},
      {{{"m", "9"}}, "m=9, and 2 to 8 are possible"},
      {{{"k", "four"}}, "k=four isn't a number of at most four digits"},
      {{{"k", "-4"}}, "k=-4 isn't a number of at most four digits"},
      {{{"m", "10000"}}, "m=10000 isn't a number of at most four digits"},
      {{{"d", "5x"}}, "d=5x isn't a number of at most four digits"},
      {{{"k", "20"}, {"m", "4"}}, "k=20 with m=4 and d=23 makes more than 1024 subchunks"},
      {{{"k", "9999"}}, "k=9999 with m=2 and d=10000 makes more than 1024 subchunks"},
      {{{"k", "18"}, {"m", "4"}, {"d", "19"}}, "k=18 with m=4 and d=19 makes more than 1024 subchunks"},
      {{{"k", "14"}, {"m", "6"}}, "k=14 with m=6 and d=19 makes more than 1024 subchunks"},
      {{{"k", "8"}, {"m", "4"}, {"d", "8"}}, "d=8 helpers of a repair are impossible: more than k and at most k+m-1=11"},
      {{{"k", "8"}, {"m", "4"}, {"d", "12"}}, "d=12 helpers of a repair are impossible: more than k and at most k+m-1=11"},
      {{{"k", "8"}, {"m", "4"}, {"d", "0"}}, "d=0 helpers of a repair are impossible: more than k and at most k+m-1=11"},
      {{{"d", "4"}}, "d=4 helpers of a repair are impossible: more than k and at most k+m-1=5"},
      {{{"d", "6"}}, "d=6 helpers of a repair are impossible: more than k and at most k+m-1=5"},
      {{{"mapping", "_DD"}}, "mapping isn't supported: chunk i is shard i"},
  };
  for (auto [profile, cause] : all) {
    profile["plugin"] = "hijpswol";
    Code code;
    string told;
    int error = make(profile, directory, &code, &told);
    expect(error == -EINVAL && !code && told == "hijpswol: " + cause + "\n", cause + ", but told was: " + told);
  }
  ErasureCodeProfile least = {{"plugin", "hijpswol"}, {"k", ""}, {"crush-failure-domain", "osd"}};
  Code code;
  string told;
  int error = make(least, directory, &code, &told);
  expect(error == 0, "a profile of defaults: " + told);
  for (auto [name, value] : ErasureCodeProfile{{"k", "4"}, {"m", "2"}, {"d", "5"}, {"crush-failure-domain", "osd"}})
    expect(code->get_profile().at(name) == value, "the default of " + name);
  printf("%zu profiles refused, each with its cause\n", all.size());
}

// Profiles with helpers, and the subchunks of a chunk.
static void acceptances(const string &directory) {
  struct {
    int k, m, d, layers;
  } all[] = {{4, 2, 5, 8}, {4, 2, 0, 8}, {8, 4, 11, 64}, {8, 4, 10, 81}, {8, 4, 9, 64}, {5, 3, 6, 16}, {10, 4, 11, 128}, {14, 6, 15, 1024}, {2, 8, 3, 32}};
  for (auto [k, m, d, layers] : all) {
    Code code = code_of("hijpswol", directory, k, m, d);
    string name = std::to_string(k) + "+" + std::to_string(m) + ", d=" + std::to_string(d);
    expect(code->get_profile().at("d") == std::to_string(d ? d : k + m - 1), name + ": the profile has another d");
    expect(code->get_sub_chunk_count() == layers, name + ": other subchunks");
    expect(code->get_chunk_size(1) == unsigned(layers) && code->get_chunk_size(k * layers + 1) == unsigned(2 * layers), name + ": other chunks");
  }
  printf("%zu profiles accepted, with their subchunks\n", std::size(all));
}

// Each call of the library fails with each status, and no function of the plugin hands on what it wrote.
static void check_failure(const Stripe &s, const string &call, int status) {
  setenv("CLAY_FAILS", (call + " " + std::to_string(status)).c_str(), 1);
  int error = status == 5 ? -ENOMEM : status == 4 ? -EIO : -EINVAL;
  Chunks made, given = only(s.chunks, without(s.all, {0})), places = s.places({0, s.n - 1}), before = places;
  bufferlist data;
  if (call.rfind("clay_parity", 0) == 0) {
    expect(s.code->encode(s.all, s.in, &made) == error, "encode though the library failed");
    expect(s.code->encode_chunks(s.all, &places) == error, "encode_chunks though the library failed");
  } else if (call.rfind("clay_recover", 0) == 0) {
    expect(s.code->decode({0}, given, &made, 0) == error, "decode though the library failed");
    expect(s.code->decode_concat(given, &data) == error, "decode_concat though the library failed");
    expect(s.code->decode_chunks({0}, given, &places) == error, "decode_chunks though the library failed");
  } else {
    SubChunks plan = plan_of(s, {0}, without(s.all, {0}), 0);
    expect(s.code->decode({0}, parts_of(s.chunks, plan, s.chunk_len / s.layers), &made, s.chunk_len) == error, "repair though the library failed");
  }
  expect(made.empty() && data.length() == 0, "bytes of a call that failed");
  for (int chunk : {0, s.n - 1})
    expect(places.at(chunk)[0] == 7 && places.at(chunk)[s.chunk_len - 1] == 7, "bytes of a call that failed, in place");
  unsetenv("CLAY_FAILS");
}

// A buffer that can't be had is thrown by Ceph's library; the caller gets an error. The input takes little memory, what is made of it much.
static void check_short_memory(const Stripe &s) {
  bufferlist much;
  ceph::bufferptr piece = room(1 << 20, 1);
  for (int i = 0; i < 2048; i++) much.append(piece);
  rlimit before, little;
  getrlimit(RLIMIT_AS, &before);
  little = {rlim_t(1) << 30, before.rlim_max};
  expect(setrlimit(RLIMIT_AS, &little) == 0, "setrlimit");
  Chunks made;
  int error = s.code->encode(s.all, much, &made);
  setrlimit(RLIMIT_AS, &before);
  expect(error < 0 && made.empty(), "an encoding without memory ends with " + std::to_string(error));
}

static void failures(const string &directory) {
  for (auto [d, name] : {std::pair(5, ""), std::pair(4, "_with_helpers")}) {
    Code code = code_of("hijpswol", directory, 3, 3, d);
    Stripe s(code, 4096, 1);
    for (string call : {"clay_parity", "clay_recover", "clay_rebuild"})
      for (int status : {1, 2, 3, 4, 5, 6, 77}) check_failure(s, call + name, status);
    Stripe after(code, 4096, 1);
    check_loss(after, {0});
    check_short_memory(s);
  }
  puts("6 calls of the library that fail, each with 7 statuses, and short memory: errors, no bytes");
}

// ---- Speed

static double seconds() {
  timespec time;
  clock_gettime(CLOCK_THREAD_CPUTIME_ID, &time);
  return time.tv_sec + time.tv_nsec * 1e-9;
}

// The median of a slice of calls.
static double seconds_of(const std::function<void()> &call) {
#ifdef __x86_64__
  if (__builtin_cpu_supports("avx")) asm volatile("vzeroupper" ::: "memory"); // a coder that left the upper halves dirty slows the next one
#endif
  vector<double> all;
  double begun = seconds();
  do {
    double before = seconds();
    call();
    all.push_back(seconds() - before);
  } while (seconds() - begun < 0.03);
  std::nth_element(all.begin(), all.begin() + all.size() / 2, all.end());
  return all[all.size() / 2];
}

struct Row {
  string what, plugin;
  double bytes; // that a call makes or hands over
  std::function<void()> call;
  vector<double> times;
};

static const vector<string> timed = {"encode", "decode, m lost", "decode, 1 lost", "repair"};

static void add_rows(const string &plugin, Code code, unsigned unit, vector<Row> *rows) {
  auto s = std::make_shared<Stripe>(code, unit, 1);
  double data = double(s->k) * s->chunk_len;
  string name = plugin + (s->chunk_len == unit ? "" : " (" + std::to_string(s->chunk_len) + ")");
  auto decode = [s](Chunks left) {
    return [s, left] {
      bufferlist made;
      expect(s->code->decode_concat(left, &made) == 0, "decode_concat");
    };
  };
  rows->push_back({timed[0], name, data, [s] { Chunks made; expect(s->code->encode(s->all, s->in, &made) == 0, "encode"); }, {}});
  rows->push_back({timed[1], name, data, decode(only(s->chunks, without(s->all, first(s->m)))), {}});
  rows->push_back({timed[2], name, data, decode(only(s->chunks, without(first(s->k + 1), {0}))), {}});
  SubChunks plan;
  expect(code->minimum_to_decode({0}, without(s->all, {0}), &plan) == 0, "minimum_to_decode");
  Chunks parts = parts_of(s->chunks, plan, s->chunk_len / s->layers);
  rows->push_back({timed[3], name, double(s->chunk_len), [s, parts] {
                     Chunks made;
                     expect(s->code->decode({0}, parts, &made, s->chunk_len) == 0, "repair");
                   }, {}});
}

// The median, the least and the greatest.
static string told(vector<double> numbers, int digits) {
  std::sort(numbers.begin(), numbers.end());
  char text[80];
  snprintf(text, sizeof text, "%.*f (%.*f..%.*f)", digits, numbers[numbers.size() / 2], digits, numbers.front(), digits, numbers.back());
  return text;
}

// How many times as fast as another row's a call is: in the same round, since a busy machine has fast rounds and slow ones.
static string told_beside(const Row &row, const Row &other) {
  vector<double> ratios;
  for (size_t round = 0; round < row.times.size(); round++) ratios.push_back(row.bytes / row.times[round] / (other.bytes / other.times[round]));
  return told(ratios, 2) + " times " + other.plugin;
}

static void show(const vector<Row *> &rows) {
  for (Row *row : rows) {
    vector<double> speeds;
    for (double time : row->times) speeds.push_back(row->bytes / time / 1e9);
    printf("  %-16s %-18s %-21s", row->what.c_str(), row->plugin.c_str(), told(speeds, 3).c_str());
    for (Row *other : rows)
      if (row == rows.back() && other != row) printf("  %s", told_beside(*row, *other).c_str());
    puts("");
  }
}

static void speed(const string &directory, int k, int m, unsigned unit, const vector<string> &plugins) {
  vector<Row> rows;
  for (auto &plugin : plugins) add_rows(plugin, code_of(plugin, directory, k, m), unit, &rows);
  vector<vector<Row *>> kinds;
  for (auto &what : timed) {
    kinds.emplace_back();
    for (auto &row : rows)
      if (row.what == what) kinds.back().push_back(&row);
  }
  for (int round = 0; round < 9; round++)
    for (auto &kind : kinds)
      for (Row *row : kind) row->times.push_back(seconds_of(row->call));
  printf("%d+%d, chunks of %u bytes, GB/s, the median (least..greatest) of 9 rounds; the last plugin beside the others in the same round\n", k, m, unit);
  for (auto &kind : kinds) show(kind);
}

int main(int count, char **words) {
  // memory once taken is kept, so that no call's time is that of fresh pages
  mallopt(M_MMAP_THRESHOLD, 1 << 30);
  mallopt(M_TRIM_THRESHOLD, INT32_MAX);
  expect(start_ceph(), "Ceph's library can't be started");
  string verb = count > 2 ? words[1] : "", directory = count > 2 ? words[2] : "";
  auto number = [&](int i) { return i < count ? atoi(words[i]) : 1; };
  if (verb == "losses" && count >= 6) losses(directory, number(3), number(4), number(5), number(6), count > 7 ? number(7) : 0);
  else if (verb == "refusals") refusals(directory), acceptances(directory);
  else if (verb == "failures") failures(directory);
  else if (verb == "speed" && count > 6) speed(directory, number(3), number(4), number(5), vector<string>(words + 6, words + count));
  else end_with("drive losses|refusals|failures|speed PLUGINS ..");
  fflush(stdout);
  _Exit(0); // Ceph's library has threads that outlive its context
}
