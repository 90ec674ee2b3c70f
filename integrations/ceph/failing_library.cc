// The library's calls, of which one fails where the environment says so: CLAY_FAILS="clay_recover 5" has that call end with status 5. What it
// was to write is then made wrong, so that a plugin that hands it on is found out. Linked into a plugin by g++'s --wrap, for `drive failures`.
#include <clay.h>
#include <cstdlib>
#include <cstring>
#include <string>

static uint32_t failure_of(const char *call) {
  const char *text = getenv("CLAY_FAILS");
  std::string start = std::string(call) + " ";
  return text && strncmp(text, start.c_str(), start.size()) == 0 ? atoi(text + start.size()) : CLAY_DONE;
}

static uint32_t fail(uint32_t status, uint8_t *bytes, size_t len) {
  memset(bytes, 0xA5, len);
  return status;
}

extern "C" {

decltype(clay_parity) __real_clay_parity;
decltype(clay_recover) __real_clay_recover;
decltype(clay_rebuild) __real_clay_rebuild;
decltype(clay_parity_with_helpers) __real_clay_parity_with_helpers;
decltype(clay_recover_with_helpers) __real_clay_recover_with_helpers;
decltype(clay_rebuild_with_helpers) __real_clay_rebuild_with_helpers;

uint32_t __wrap_clay_parity(uint32_t k, uint32_t m, uint32_t w, const uint8_t *stripe, size_t stripe_len, uint8_t *parity, size_t parity_len) {
  uint32_t failure = failure_of("clay_parity");
  return failure ? fail(failure, parity, parity_len) : __real_clay_parity(k, m, w, stripe, stripe_len, parity, parity_len);
}

uint32_t __wrap_clay_recover(uint32_t k, uint32_t m, uint32_t w, const uint8_t *present, size_t present_len, uint8_t *chunks, size_t chunks_len) {
  uint32_t failure = failure_of("clay_recover");
  return failure ? fail(failure, chunks, chunks_len) : __real_clay_recover(k, m, w, present, present_len, chunks, chunks_len);
}

uint32_t __wrap_clay_rebuild(uint32_t k, uint32_t m, uint32_t w, uint32_t lost, const uint8_t *parts, size_t parts_len, uint8_t *chunk, size_t chunk_len) {
  uint32_t failure = failure_of("clay_rebuild");
  return failure ? fail(failure, chunk, chunk_len) : __real_clay_rebuild(k, m, w, lost, parts, parts_len, chunk, chunk_len);
}

uint32_t __wrap_clay_parity_with_helpers(uint32_t k, uint32_t m, uint32_t d, uint32_t w, const uint8_t *stripe, size_t stripe_len, uint8_t *parity,
                                         size_t parity_len) {
  uint32_t failure = failure_of("clay_parity_with_helpers");
  return failure ? fail(failure, parity, parity_len) : __real_clay_parity_with_helpers(k, m, d, w, stripe, stripe_len, parity, parity_len);
}

uint32_t __wrap_clay_recover_with_helpers(uint32_t k, uint32_t m, uint32_t d, uint32_t w, const uint8_t *present, size_t present_len,
                                          uint8_t *chunks, size_t chunks_len) {
  uint32_t failure = failure_of("clay_recover_with_helpers");
  return failure ? fail(failure, chunks, chunks_len) : __real_clay_recover_with_helpers(k, m, d, w, present, present_len, chunks, chunks_len);
}

uint32_t __wrap_clay_rebuild_with_helpers(uint32_t k, uint32_t m, uint32_t d, uint32_t w, uint32_t lost, const uint8_t *helpers, size_t helpers_len,
                                          const uint8_t *parts, size_t parts_len, uint8_t *chunk, size_t chunk_len) {
  uint32_t failure = failure_of("clay_rebuild_with_helpers");
  return failure ? fail(failure, chunk, chunk_len)
                 : __real_clay_rebuild_with_helpers(k, m, d, w, lost, helpers, helpers_len, parts, parts_len, chunk, chunk_len);
}

} // extern "C"
