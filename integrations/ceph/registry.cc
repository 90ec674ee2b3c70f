#include "registry.h"

#include <cerrno>
#include <dlfcn.h>
#include <rados/librados.h>

using std::ostream;
using std::string;

namespace ceph {

namespace common {
class CephContext;
}
namespace global {
extern common::CephContext *g_ceph_context;
}

ErasureCodePluginRegistry ErasureCodePluginRegistry::singleton;
static std::map<string, ErasureCodePlugin *> plugins;

int ErasureCodePluginRegistry::add(const string &name, ErasureCodePlugin *plugin) { return plugins.emplace(name, plugin).second ? 0 : -EEXIST; }

static int load(const string &name, const string &directory, ostream *why) {
  string path = directory + "/libec_" + name + ".so", own_name = name, own_directory = directory;
  void *library = dlopen(path.c_str(), RTLD_NOW);
  if (!library) {
    *why << dlerror();
    return -EIO;
  }
  auto start = reinterpret_cast<int (*)(char *, char *)>(dlsym(library, "__erasure_code_init"));
  int error = start ? start(own_name.data(), own_directory.data()) : -ENOENT;
  if (!error && !plugins.count(name)) error = -EBADF; // as of Ceph's registry
  if (error) *why << path << " can't be started";
  return error;
}

int ErasureCodePluginRegistry::factory(const string &name, const string &directory, ErasureCodeProfile &profile, ErasureCodeInterfaceRef *code,
                                       ostream *why) {
  int error = plugins.count(name) ? 0 : load(name, directory, why);
  if (error) return error;
  error = plugins.at(name)->factory(directory, profile, code, why);
  if (error || (*code)->get_profile() == profile) return error;
  *why << "the profile of " << name << " isn't the one that was told back";
  return -EINVAL; // an osd refuses such
}

} // namespace ceph

bool start_ceph() {
  rados_t cluster;
  if (rados_create(&cluster, nullptr) != 0) return false;
  ceph::global::g_ceph_context = reinterpret_cast<ceph::common::CephContext *>(rados_cct(cluster));
  return true;
}
