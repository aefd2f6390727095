#include "by_simdjson.h"

int main(int count, char **words) { return run_canonical(count, words, by_simdjson::canonical); }
