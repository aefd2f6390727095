// What the programs of this folder share: how a text comes in, and how an answer goes out.
#pragma once
#include <sys/stat.h>

#include <cstdio>
#include <string>
#include <string_view>

// Takes an answer. The bytes are the caller's after the call.
using Sink = void (*)(std::string_view answer);

// The bytes behind a text that simdjson may read.
constexpr size_t PADDING = 64;

// Reads standard input, a file into as much memory as it has bytes.
inline std::string read_all() {
  std::string text;
  struct stat file;
  if (fstat(0, &file) == 0 && file.st_size > 0) text.reserve(file.st_size + PADDING);
  char chunk[1 << 16];
  for (size_t n; (n = fread(chunk, 1, sizeof chunk, stdin)) > 0;) text.append(chunk, n);
  text.reserve(text.size() + PADDING);
  return text;
}

inline void print(std::string_view answer) { fwrite(answer.data(), 1, answer.size(), stdout); }

// The program of one library: `PROGRAM canonical both` reads a text and prints its canonical text. Fails for every other job.
inline int run_canonical(int count, char **words, bool (*canonical)(std::string_view, Sink)) {
  if (count < 2 || std::string_view(words[1]) != "canonical") return 2;
  return canonical(read_all(), print) ? 0 : 1;
}
