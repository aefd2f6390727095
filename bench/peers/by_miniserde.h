// Canonical text and validation with the library that ./install builds.
#pragma once
#include <miniserde.h>

#include <cstdlib>

#include "peer.h"

namespace by_miniserde {

// The caller's room is as long as the text, and allocated for each call.
inline bool canonical(std::string_view text, Sink sink) {
  char *out = static_cast<char *>(malloc(text.size() + 1));
  size_t written = 0;
  bool is_ok = out && miniserde_canonical(text.data(), text.size(), out, text.size(), &written) == MINISERDE_OK;
  if (is_ok) sink({out, written});
  free(out);
  return is_ok;
}

inline bool is_json(std::string_view text, Sink) { return miniserde_is_json(text.data(), text.size()) == MINISERDE_OK; }

}  // namespace by_miniserde
