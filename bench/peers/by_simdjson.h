// Canonical text and validation with simdjson. One parser serves all calls, as its manual advises.
#pragma once
#include <simdjson.h>

#include <algorithm>
#include <vector>

#include "peer.h"

namespace by_simdjson {

using namespace simdjson;
static_assert(SIMDJSON_PADDING <= PADDING, "a text has enough room behind it");

// simdjson's own writer of names, strings and numbers. It has no public one but for whole documents.
using Output = internal::mini_formatter;

inline void put(Output &out, dom::element value);

inline void put_object(Output &out, dom::object object) {
  std::vector<dom::key_value_pair> members;
  for (auto member : object) members.push_back(member);
  std::stable_sort(members.begin(), members.end(), [](auto &a, auto &b) { return a.key < b.key; });
  out.start_object();
  bool is_first = true;
  for (size_t i = 0; i < members.size(); ++i) {
    if (i + 1 < members.size() && members[i].key == members[i + 1].key) continue;
    if (!is_first) out.comma();
    is_first = false;
    out.key(members[i].key);
    put(out, members[i].value);
  }
  out.end_object();
}

inline void put_array(Output &out, dom::array array) {
  out.start_array();
  bool is_first = true;
  for (dom::element item : array) {
    if (!is_first) out.comma();
    is_first = false;
    put(out, item);
  }
  out.end_array();
}

inline void put(Output &out, dom::element value) {
  switch (value.type()) {
    case dom::element_type::ARRAY: return put_array(out, value);
    case dom::element_type::OBJECT: return put_object(out, value);
    case dom::element_type::STRING: return out.string(value.get_string().value_unsafe());
    case dom::element_type::BOOL: return value.get_bool().value_unsafe() ? out.true_atom() : out.false_atom();
    case dom::element_type::NULL_VALUE: return out.null_atom();
    case dom::element_type::INT64: return out.number(value.get_int64().value_unsafe());
    case dom::element_type::UINT64: return out.number(value.get_uint64().value_unsafe());
    case dom::element_type::DOUBLE: return out.number(value.get_double().value_unsafe());
  }
}

// The text is parsed where it lies.
inline bool parse(std::string_view text, dom::element &document) {
  static dom::parser parser;
  return parser.parse(text.data(), text.size(), false).get(document) == SUCCESS;
}

// Parses a document, sorts the names of each object, of equal names keeps the last, and writes compact text.
inline bool canonical(std::string_view text, Sink sink) {
  dom::element document;
  if (!parse(text, document)) return false;
  Output out;
  put(out, document);
  sink(out.str());
  return true;
}

inline bool is_json(std::string_view text, Sink) {
  dom::element document;
  return parse(text, document);
}

}  // namespace by_simdjson
