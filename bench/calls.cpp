// Measures single calls over a document in memory, the library's beside simdjson's On-Demand, yyjson, serde_json
// and memcpy, in one process: the least of five runs of each, in milliseconds and nanoseconds a byte.
//
//   calls NAME FILE..     FILE as the command reads it: path lines, an empty line, the document
//
// With ONLY_LIBRARY the peers are left out, and it names the processors that the library is built for.
#include <simdjson.h>
#include <time.h>

#include <cstdio>
#include <cstring>
#include <fstream>
#include <functional>
#include <iterator>
#include <string>
#include <string_view>
#include <vector>

#ifndef ONLY_SIMDJSON
#include "jihluka.h"
#endif
#ifdef YYJSON
#include "yyjson.h"
#endif

#ifdef SERDE_JSON
extern "C" bool serde_json_validate(const uint8_t *json, size_t length);
extern "C" size_t serde_json_get(const uint8_t *json, size_t length, const uint8_t *path, size_t path_length);
#endif

namespace ondemand = simdjson::ondemand;

#ifdef ONLY_LIBRARY
static const std::string processors = ", " ONLY_LIBRARY;
#else
[[maybe_unused]] static const std::string processors;
#endif

// Processor seconds of this thread.
static double now() {
  timespec time;
  clock_gettime(CLOCK_THREAD_CPUTIME_ID, &time);
  return time.tv_sec + time.tv_nsec * 1e-9;
}

[[maybe_unused]] static const uint8_t *bytes(std::string_view text) { return reinterpret_cast<const uint8_t *>(text.data()); }

struct Document {
  std::string text;
  std::string lines;
  std::vector<std::string> paths;
};

static Document read(const char *file) {
  std::ifstream in(file, std::ios::binary);
  std::string all((std::istreambuf_iterator<char>(in)), std::istreambuf_iterator<char>());
  Document document;
  size_t start = 0;
  for (;;) {
    size_t end = all.find('\n', start);
    std::string line = all.substr(start, end - start);
    start = end + 1;
    if (line.empty()) break;
    document.paths.push_back(line);
    document.lines += line + "\n";
  }
  document.text = all.substr(start);
  document.text.reserve(document.text.size() + simdjson::SIMDJSON_PADDING);
  return document;
}

// Follows one path, and gives the length of what it leads to.
[[maybe_unused]] static size_t follow(ondemand::parser &parser, const Document &document, const std::vector<simdjson::dom::element> &steps) {
  simdjson::padded_string_view text(document.text.data(), document.text.size(), document.text.capacity());
  ondemand::document whole;
  ondemand::value value;
  if (parser.iterate(text).get(whole) || whole.get_value().get(value)) return 0;
  for (auto step : steps) {
    std::string_view key;
    uint64_t index;
    if (!step.get(key)) {
      if (value.find_field_unordered(key).get(value)) return 0;
    } else if (!step.get(index)) {
      ondemand::array array;
      if (value.get_array().get(array) || array.at(index).get(value)) return 0;
    }
  }
  std::string_view raw;
  return simdjson::to_json_string(value).get(raw) ? 0 : raw.size();
}

static void measure(const char *name, size_t size, const std::string &call, const std::function<size_t()> &run) {
  double least = 1e9;
  size_t answer = 0;
  for (int turn = 0; turn < 5; turn++) {
    double start = now();
    answer = run();
    double took = now() - start;
    if (took < least) least = took;
  }
  std::printf("%-10s %4.0f %-33s %9.3f %7.3f  %zu\n", name, size / 1e6, call.c_str(), least * 1e3, least * 1e9 / size, answer);
}

int main(int count, char **files) {
  std::printf("%-10s %4s %-33s %9s %7s  %s\n", "document", "MB", "call", "ms", "ns/byte", "answer");
  for (int i = 1; i + 1 < count; i += 2) {
    Document document = read(files[i + 1]);
    const char *name = files[i];
    [[maybe_unused]] const uint8_t *json = bytes(document.text);
    size_t size = document.text.size();
    const std::string &path = document.paths[0];
#ifndef ONLY_SIMDJSON
    jihluka_error error = {0, 0, 0, 0};
    std::vector<jihluka_span> spans(document.paths.size());
#ifndef ONLY_LIBRARY
    std::vector<char> copy(size, 1);
    measure(name, size, "memcpy", [&] {
      std::memcpy(copy.data(), json, size);
      asm volatile("" : : "r"(copy.data()) : "memory");
      return size;
    });
#endif
    measure(name, size, "jihluka_validate" + processors, [&] { return size_t(jihluka_validate(json, size, &error) == JIHLUKA_OK); });
    auto one = [&](uint32_t (*call)(const uint8_t *, size_t, const uint8_t *, size_t, jihluka_span *, jihluka_error *)) {
      jihluka_span span = {0, 0};
      return call(json, size, bytes(path), path.size(), &span, &error) == JIHLUKA_OK ? span.end - span.start : 0;
    };
    measure(name, size, "jihluka_get" + processors, [&] { return one(jihluka_get); });
    measure(name, size, "jihluka_get_unchecked" + processors, [&] { return one(jihluka_get_unchecked); });
    measure(name, size, "jihluka_get_many" + processors, [&] {
      return size_t(jihluka_get_many(json, size, bytes(document.lines), document.lines.size(), spans.data(), spans.size(), &error) == JIHLUKA_OK);
    });
#endif
#ifndef ONLY_LIBRARY
    simdjson::dom::parser reader;
    simdjson::dom::array array;
    std::vector<simdjson::dom::element> steps;
    if (!reader.parse(path.data(), path.size()).get(array)) {
      for (auto step : array) steps.push_back(step);
    }
    ondemand::parser parser;
    std::string peer = "On-Demand, " + std::string(simdjson::get_active_implementation()->name());
    measure(name, size, peer, [&] { return follow(parser, document, steps); });
#ifdef YYJSON
    measure(name, size, "yyjson, read", [&] {
      yyjson_doc *whole = yyjson_read(document.text.data(), size, 0);
      size_t values = yyjson_doc_get_val_count(whole);
      yyjson_doc_free(whole);
      return values;
    });
#endif
#ifdef SERDE_JSON
    measure(name, size, "serde_json, whole", [&] { return size_t(serde_json_validate(json, size)); });
    measure(name, size, "serde_json, one path", [&] { return serde_json_get(json, size, bytes(path), path.size()); });
#endif
#endif
  }
}
