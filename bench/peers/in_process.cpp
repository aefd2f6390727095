// Calls one library in this process, over the text on standard input:
//   in_process LIBRARY JOB answer             calls it once, and prints the canonical text; status 1 if it is refused
//   in_process LIBRARY JOB CALLS [BATCHES]    prints the seconds a call of the fastest batch, in processor time
#include <ctime>
#include <cstdlib>

#include "by_jansson.h"
#include "by_miniserde.h"
#include "by_rapidjson.h"
#include "by_simdjson.h"

struct Job {
  std::string_view library, name;
  bool (*run)(std::string_view text, Sink sink);
};

static const Job JOBS[] = {
    {"miniserde", "canonical", by_miniserde::canonical}, {"jansson", "canonical", by_jansson::canonical},
    {"RapidJSON", "canonical", by_rapidjson::canonical}, {"simdjson", "canonical", by_simdjson::canonical},
    {"miniserde", "is_json", by_miniserde::is_json},     {"RapidJSON", "is_json", by_rapidjson::is_json},
    {"simdjson", "is_json", by_simdjson::is_json},
};

static double seconds() {
  timespec now;
  clock_gettime(CLOCK_PROCESS_CPUTIME_ID, &now);
  return now.tv_sec + now.tv_nsec * 1e-9;
}

static void drop(std::string_view) {}

static int measure(const Job &job, std::string_view text, long calls, long batches) {
  double least = 1e9;
  for (; batches > 0; --batches) {
    double begun = seconds();
    for (long n = 0; n < calls; ++n)
      if (!job.run(text, drop)) return 1;
    least = std::min(least, (seconds() - begun) / calls);
  }
  printf("%.12f\n", least);
  return 0;
}

int main(int count, char **words) {
  if (count < 4) return 2;
  std::string text = read_all();
  for (const Job &job : JOBS) {
    if (job.library != words[1] || job.name != words[2]) continue;
    if (std::string_view(words[3]) == "answer") return job.run(text, print) ? 0 : 1;
    return measure(job, text, atol(words[3]), count > 4 ? atol(words[4]) : 1);
  }
  return 2;
}
