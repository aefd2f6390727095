// Canonical text and validation with RapidJSON.
#pragma once
#include <rapidjson/document.h>
#include <rapidjson/reader.h>
#include <rapidjson/stringbuffer.h>
#include <rapidjson/writer.h>

#include <algorithm>
#include <cstring>
#include <vector>

#include "peer.h"

namespace by_rapidjson {

using rapidjson::Value;
using Output = rapidjson::Writer<rapidjson::StringBuffer>;

// As RFC 8259 has it: UTF-8 is checked, and documents may nest deeply.
constexpr unsigned FLAGS = rapidjson::kParseIterativeFlag | rapidjson::kParseValidateEncodingFlag;

inline int compare(const Value &a, const Value &b) {
  size_t x = a.GetStringLength(), y = b.GetStringLength();
  int order = memcmp(a.GetString(), b.GetString(), std::min(x, y));
  return order ? order : (x < y ? -1 : x > y);
}

inline void put(Output &out, const Value &value) {
  if (value.IsObject()) {
    std::vector<const Value::Member *> members;
    for (auto it = value.MemberBegin(); it != value.MemberEnd(); ++it) members.push_back(&*it);
    std::stable_sort(members.begin(), members.end(), [](auto *a, auto *b) { return compare(a->name, b->name) < 0; });
    out.StartObject();
    for (size_t i = 0; i < members.size(); ++i) {
      if (i + 1 < members.size() && compare(members[i]->name, members[i + 1]->name) == 0) continue;
      out.Key(members[i]->name.GetString(), members[i]->name.GetStringLength());
      put(out, members[i]->value);
    }
    out.EndObject();
  } else if (value.IsArray()) {
    out.StartArray();
    for (auto it = value.Begin(); it != value.End(); ++it) put(out, *it);
    out.EndArray();
  } else {
    value.Accept(out);
  }
}

// Parses a document, sorts the names of each object, of equal names keeps the last, and writes compact text.
inline bool canonical(std::string_view text, Sink sink) {
  rapidjson::Document document;
  document.Parse<FLAGS>(text.data(), text.size());
  if (document.HasParseError()) return false;
  rapidjson::StringBuffer buffer;
  Output out(buffer);
  put(out, document);
  sink({buffer.GetString(), buffer.GetSize()});
  return true;
}

// Reads events that nobody takes, and no number's value.
inline bool is_json(std::string_view text, Sink) {
  rapidjson::Reader reader;
  rapidjson::BaseReaderHandler<> none;
  rapidjson::MemoryStream bytes(text.data(), text.size());
  rapidjson::EncodedInputStream<rapidjson::UTF8<>, rapidjson::MemoryStream> stream(bytes);
  return !reader.Parse<FLAGS | rapidjson::kParseNumbersAsStringsFlag>(stream, none).IsError();
}

}  // namespace by_rapidjson
