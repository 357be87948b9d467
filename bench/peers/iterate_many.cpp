// Two keys of each document of a stream by simdjson's iterate_many: iterate_many FILE KEY KEY. The file is
// in memory before the clock starts; the processor seconds of the least of five turns go to standard
// error. Where a key's value is an array, its first element is taken. It judges no value that it passes.
#include <simdjson.h>

#include <algorithm>
#include <cstdio>
#include <ctime>

namespace ondemand = simdjson::ondemand;

static size_t take(ondemand::document_reference document, const char *key) {
  ondemand::value value;
  if (document.find_field_unordered(key).get(value)) return 1;
  ondemand::json_type type;
  if (!value.type().get(type) && type == ondemand::json_type::array) {
    ondemand::array elements;
    if (value.get_array().get(elements) || elements.at(0).get(value)) return 1;
  }
  std::string_view text;
  if (simdjson::to_json_string(value).get(text)) return 1;
  return text.size();
}

int main(int count, char **words) {
  if (count != 4) return 2;
  auto json = simdjson::padded_string::load(words[1]);
  if (json.error()) return 1;
  double least = 1e9;
  size_t taken = 0;
  for (int turn = 0; turn < 5; turn++) {
    ondemand::parser parser;
    clock_t begun = clock();
    ondemand::document_stream documents;
    if (parser.iterate_many(json.value(), 1 << 24).get(documents)) return 1;
    for (auto document : documents) {
      if (document.error()) return 1;
      taken += take(document.value(), words[2]) + take(document.value(), words[3]);
    }
    least = std::min(least, double(clock() - begun) / CLOCKS_PER_SEC);
  }
  fprintf(stderr, "%.3f\n", least);
  return taken == 0;
}
