// Typed reading with simdjson's On-Demand API: `on_demand KIND read`. Reads a text into the containers and structs of
// C++'s library that stand for the job's type, and drops them. Fails for every other job, and in every other mode. The
// text is read into one buffer, in which simdjson parses it.
#include <simdjson.h>

#include <map>
#include <optional>
#include <string>
#include <string_view>
#include <utility>
#include <variant>
#include <vector>

#include "peer.h"

using namespace simdjson;
using Value = ondemand::value;

// Each `get` reads a value of its second parameter's type, and throws if the text has none.
template <class T> static void get(Value v, T &out) {
  uint64_t n = v.get_uint64().value();
  out = T(n);
  if (out != n) throw simdjson_error(NUMBER_OUT_OF_RANGE);
}
template <> void get(Value v, int64_t &out) { out = v.get_int64().value(); }
template <> void get(Value v, int32_t &out) { out = int32_t(v.get_int64().value()); }
template <> void get(Value v, bool &out) { out = v.get_bool().value(); }
template <> void get(Value v, std::string &out) { out = std::string_view(v.get_string().value()); }
template <class T> static void get(Value v, std::vector<T> &out);
template <class T> static void get(Value v, std::optional<T> &out);
template <class K, class T> static void get(Value v, std::map<K, T> &out);
template <class A, class B> static void get(Value v, std::pair<A, B> &out);

static void key(std::string_view name, std::string &out) { out = name; }
static void key(std::string_view name, uint64_t &out) { out = std::stoull(std::string(name)); }

// Takes a value into a field, and marks it as there.
template <class T> static bool field(Value v, T &out, uint32_t &there, int at) {
  get(v, out);
  there |= 1u << at;
  return true;
}

struct Demo { uint64_t code; std::string message; };
struct User {
  uint64_t id; std::string name, screen_name; uint32_t followers_count; bool verified; std::string description;
  std::optional<std::string> url;
};
struct Hashtag { std::string text; std::pair<uint16_t, uint16_t> indices; };
struct Entities { std::vector<Hashtag> hashtags; std::vector<std::string> urls; };
struct Photo { std::string url; uint32_t width, height; };
struct Video { std::string url; uint32_t seconds; };
using Media = std::variant<Photo, Video, std::string>;
struct Post {
  uint64_t id; std::string created_at, text; bool truncated; User user; std::optional<std::pair<int64_t, int64_t>> coordinates;
  Entities entities; bool favorited; std::string lang; std::vector<Media> media; std::map<std::string, uint32_t> counts;
};
struct Position { int64_t x; std::optional<int64_t> y; };
struct Entry { uint64_t id; std::string name; std::vector<std::string> tags; bool ok; Position at; };
struct Page { uint64_t total; std::optional<std::string> next; std::vector<Entry> records; };
enum class Level { Error, Warn, Info, Debug };
struct Service {
  std::string name, host; uint16_t port; std::optional<uint16_t> admin_port; uint8_t workers; uint32_t queue; uint64_t timeout_ms;
  std::optional<uint64_t> idle_timeout_ms; uint64_t max_body; uint32_t max_header; bool keep_alive, tls;
  std::optional<std::string> cert, key; Level level; std::optional<std::string> log_file;
  std::vector<std::string> origins, methods; std::map<std::string, std::string> headers;
  std::map<std::string, std::vector<std::string>> routes; uint32_t per_second, burst; std::optional<uint64_t> block_seconds;
  std::vector<uint16_t> retry; std::pair<uint32_t, uint32_t> backoff; int32_t offset; std::string region;
  std::optional<std::vector<std::string>> tags; std::map<uint64_t, int64_t> quota; uint8_t share;
};
enum class Tag { A, B, Enum };

[[noreturn]] static void refuse() { throw simdjson_error(INCORRECT_TYPE); }

template <> void get(Value v, Tag &out) {
  std::string_view name = v.get_string().value();
  out = name == "A" ? Tag::A : name == "renamedB" ? Tag::B : name == "enum" ? Tag::Enum : (refuse(), Tag::A);
}
template <> void get(Value v, Level &out) {
  std::string_view name = v.get_string().value();
  out = name == "Error" ? Level::Error : name == "Warn" ? Level::Warn : name == "Info" ? Level::Info
      : name == "Debug" ? Level::Debug : (refuse(), Level::Error);
}

#define FIELD(at, name) (k == #name && field(v, out.name, there, at))
#define STRUCT(T, all, fields)                               \
  template <> void get(Value value, T &out) {                \
    uint32_t there = 0;                                      \
    for (auto member : value.get_object()) {                 \
      std::string_view k = member.unescaped_key().value();   \
      Value v = member.value();                              \
      (void)(fields);                                        \
    }                                                        \
    if ((there & (all)) != (all)) refuse();                  \
  }
STRUCT(Demo, 3u, FIELD(0, code) || FIELD(1, message))
STRUCT(User, 63u, FIELD(0, id) || FIELD(1, name) || FIELD(2, screen_name) || FIELD(3, followers_count) || FIELD(4, verified)
  || FIELD(5, description) || FIELD(6, url))
STRUCT(Hashtag, 3u, FIELD(0, text) || FIELD(1, indices))
STRUCT(Entities, 3u, FIELD(0, hashtags) || FIELD(1, urls))
STRUCT(Photo, 7u, FIELD(0, url) || FIELD(1, width) || FIELD(2, height))
STRUCT(Video, 3u, FIELD(0, url) || FIELD(1, seconds))
template <> void get(Value v, Media &out) {
  auto object = v.get_object().value();
  auto member = *object.begin();
  std::string_view name = member.unescaped_key().value();
  if (name == "Photo") get(member.value(), out.emplace<Photo>());
  else if (name == "Video") get(member.value(), out.emplace<Video>());
  else if (name == "Link") get(member.value(), out.emplace<std::string>());
  else refuse();
}
STRUCT(Post, 2015u, FIELD(0, id) || FIELD(1, created_at) || FIELD(2, text) || FIELD(3, truncated) || FIELD(4, user)
  || FIELD(5, coordinates) || FIELD(6, entities) || FIELD(7, favorited) || FIELD(8, lang) || FIELD(9, media) || FIELD(10, counts))
STRUCT(Position, 1u, FIELD(0, x) || FIELD(1, y))
STRUCT(Entry, 31u, FIELD(0, id) || FIELD(1, name) || FIELD(2, tags) || FIELD(3, ok) || FIELD(4, at))
STRUCT(Page, 5u, FIELD(0, total) || FIELD(1, next) || FIELD(2, records))
STRUCT(Service, 0x37bf4f77u, FIELD(0, name) || FIELD(1, host) || FIELD(2, port) || FIELD(3, admin_port)
  || FIELD(4, workers) || FIELD(5, queue) || FIELD(6, timeout_ms) || FIELD(7, idle_timeout_ms) || FIELD(8, max_body)
  || FIELD(9, max_header) || FIELD(10, keep_alive) || FIELD(11, tls) || FIELD(12, cert) || FIELD(13, key) || FIELD(14, level)
  || FIELD(15, log_file) || FIELD(16, origins) || FIELD(17, methods) || FIELD(18, headers) || FIELD(19, routes)
  || FIELD(20, per_second) || FIELD(21, burst) || FIELD(22, block_seconds) || FIELD(23, retry) || FIELD(24, backoff)
  || FIELD(25, offset) || FIELD(26, region) || FIELD(27, tags) || FIELD(28, quota) || FIELD(29, share))

template <class T> static void get(Value v, std::vector<T> &out) {
  for (auto item : v.get_array()) {
    out.emplace_back();
    get(item.value(), out.back());
  }
}
template <class T> static void get(Value v, std::optional<T> &out) {
  if (!v.is_null()) get(v, out.emplace());
}
template <class K, class T> static void get(Value v, std::map<K, T> &out) {
  for (auto member : v.get_object()) {
    K name;
    key(member.unescaped_key().value(), name);
    get(member.value(), out[name]);
  }
}
template <class A, class B> static void get(Value v, std::pair<A, B> &out) {
  auto list = v.get_array().value();
  auto at = list.begin();
  get(Value(*at), out.first);
  get(Value(*++at), out.second);
  if (++at != list.end()) refuse();
}

// Reads the text, a list, or for a map an object.
template <class T> static int job(ondemand::document &document) {
  T out;
  get(document.get_value().value(), out);
  return 0;
}

int main(int count, char **words) {
  if (count != 3 || std::string_view(words[2]) != "read") return 2;
  std::string_view kind = words[1];
  auto text = read_all();
  ondemand::parser parser;
  try {
    ondemand::document document = parser.iterate(text.data(), text.size(), text.capacity());
    if (kind == "u64s") return job<std::vector<uint64_t>>(document);
    if (kind == "strings") return job<std::vector<std::string>>(document);
    if (kind == "rows") return job<std::vector<std::vector<uint64_t>>>(document);
    if (kind == "cubes") return job<std::vector<std::vector<std::vector<uint64_t>>>>(document);
    if (kind == "map") return job<std::map<std::string, uint64_t>>(document);
    if (kind == "demos") return job<std::vector<Demo>>(document);
    if (kind == "tags") return job<std::vector<Tag>>(document);
    if (kind == "pairs") return job<std::vector<std::pair<uint64_t, std::string>>>(document);
    if (kind == "options") return job<std::vector<std::optional<bool>>>(document);
    if (kind == "posts") return job<std::vector<Post>>(document);
    if (kind == "pages") return job<std::vector<Page>>(document);
    if (kind == "services") return job<std::vector<Service>>(document);
  } catch (simdjson_error &) {
    return 1;
  }
  return 2;
}
