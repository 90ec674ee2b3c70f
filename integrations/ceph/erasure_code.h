// Ceph's interface of erasure code plugins, as version 16.2 has it. No package ships these declarations: the virtual functions stand in the
// order of the installed plugins' tables (readelf -rW libec_clay.so | c++filt). Another version may order them otherwise, so `build` takes
// 16.2 alone.
#pragma once
#include <map>
#include <memory>
#include <ostream>
#include <set>
#include <string>
#include <utility>
#include <vector>
#include <rados/buffer.h>

class CrushWrapper;

namespace ceph {

using ErasureCodeProfile = std::map<std::string, std::string>;
using Chunks = std::map<int, bufferlist>;
// Runs of subchunks: the number of the first one, and how many.
using Runs = std::vector<std::pair<int, int>>;
// What is read of each chunk.
using SubChunks = std::map<int, Runs>;

// One code. The functions that return int return 0, or an errno below it.
class ErasureCodeInterface {
public:
  virtual ~ErasureCodeInterface() {}
  virtual int init(ErasureCodeProfile &profile, std::ostream *why) = 0;
  virtual const ErasureCodeProfile &get_profile() const = 0;
  virtual int create_rule(const std::string &name, CrushWrapper &map, std::ostream *why) const = 0;
  virtual unsigned get_chunk_count() const = 0;
  virtual unsigned get_data_chunk_count() const = 0;
  virtual unsigned get_coding_chunk_count() const = 0;
  virtual int get_sub_chunk_count() = 0;
  virtual unsigned get_chunk_size(unsigned object_size) const = 0;
  virtual int minimum_to_decode(const std::set<int> &want, const std::set<int> &available, SubChunks *minimum) = 0;
  virtual int minimum_to_decode_with_cost(const std::set<int> &want, const std::map<int, int> &available, std::set<int> *minimum) = 0;
  virtual int encode(const std::set<int> &want, const bufferlist &in, Chunks *encoded) = 0;
  virtual int encode_chunks(const std::set<int> &want, Chunks *encoded) = 0;
  virtual int decode(const std::set<int> &want, const Chunks &chunks, Chunks *decoded, int chunk_size) = 0;
  virtual int decode_chunks(const std::set<int> &want, const Chunks &chunks, Chunks *decoded) = 0;
  virtual const std::vector<int> &get_chunk_mapping() const = 0;
  virtual int decode_concat(const Chunks &chunks, bufferlist *decoded) = 0;
};
using ErasureCodeInterfaceRef = std::shared_ptr<ErasureCodeInterface>;

class ErasureCodePlugin {
public:
  void *library = nullptr; // the registry's
  virtual ~ErasureCodePlugin() {}
  virtual int factory(const std::string &directory, ErasureCodeProfile &profile, ErasureCodeInterfaceRef *code, std::ostream *why) = 0;
};

// Its members are the daemon's own affair, so none may be made here.
class ErasureCodePluginRegistry {
public:
  static ErasureCodePluginRegistry singleton;
  int add(const std::string &name, ErasureCodePlugin *plugin);
  int factory(const std::string &plugin, const std::string &directory, ErasureCodeProfile &profile, ErasureCodeInterfaceRef *code, std::ostream *why);
};

} // namespace ceph
