// Canonical text with jansson, which sorts names itself.
#pragma once
#include <jansson.h>

#include <cstdlib>
#include <cstring>

#include "peer.h"

namespace by_jansson {

inline bool canonical(std::string_view text, Sink sink) {
  json_t *document = json_loadb(text.data(), text.size(), JSON_DECODE_ANY | JSON_ALLOW_NUL, nullptr);
  char *out = document ? json_dumps(document, JSON_SORT_KEYS | JSON_COMPACT | JSON_ENCODE_ANY) : nullptr;
  if (out) sink(out);
  free(out);
  json_decref(document);
  return out != nullptr;
}

}  // namespace by_jansson
