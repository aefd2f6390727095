#include "by_rapidjson.h"

int main(int count, char **words) { return run_canonical(count, words, by_rapidjson::canonical); }
