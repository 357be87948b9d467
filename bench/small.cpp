// Measures calls over many small documents, one after the other, in one process: the least of seven turns, in
// nanoseconds a document.
//
//   small BYTES    how many bytes of documents a turn goes through
//
// With ONLY_LIBRARY the peers are left out, and it names the processors that the library is built for.
#include <simdjson.h>
#include <time.h>

#include <cstdio>
#include <cstdlib>
#include <functional>
#include <random>
#include <string>
#include <string_view>
#include <vector>

#include "jihluka.h"
#ifdef YYJSON
#include "yyjson.h"
#endif

namespace ondemand = simdjson::ondemand;

#ifdef ONLY_LIBRARY
static const std::string processors = ", " ONLY_LIBRARY;
#else
[[maybe_unused]] static const std::string processors;
#endif

// Processor seconds of this thread.
static double now() {
  timespec time;
  clock_gettime(CLOCK_THREAD_CPUTIME_ID, &time);
  return time.tv_sec + time.tv_nsec * 1e-9;
}

static const uint8_t *bytes(std::string_view text) { return reinterpret_cast<const uint8_t *>(text.data()); }

// A request: the first field, one in the middle below another, and the last are asked for. The items between
// them make it as long as is wanted.
static std::string request(std::mt19937 &random, size_t length) {
  std::string text = "{\"id\":\"" + std::to_string(random() % 100000000) + "\",\"user\":{\"name\":\"ada\",\"level\":" + std::to_string(random() % 9) +
                     ",\"tags\":[\"a\",\"b\"]},\"items\":[";
  const std::string end = "],\"note\":null,\"total\":" + std::to_string(random() % 10000) + ".5}";
  for (bool first = true; first || text.size() + end.size() + 40 < length; first = false) {
    text += first ? "" : ",";
    text += "{\"sku\":\"" + std::to_string(random() % 100000) + "\",\"count\":" + std::to_string(random() % 100) + "}";
  }
  return text + end;
}

static const char *const PATHS[] = {"[\"id\"]", "[\"user\",\"level\"]", "[\"total\"]"};
static const char LINES[] = "[\"id\"]\n[\"user\",\"level\"]\n[\"total\"]\n";

// What simdjson finds, in the order of the document, which it wants: the lengths of the three texts.
[[maybe_unused]] static size_t ondemand_three(ondemand::parser &parser, const simdjson::padded_string &text) {
  ondemand::document document;
  std::string_view id, level, total;
  ondemand::object user;
  if (parser.iterate(text).get(document)) return 0;
  ondemand::value value;
  if (document["id"].get(value) || simdjson::to_json_string(value).get(id)) return 0;
  if (document["user"].get_object().get(user) || user["level"].get(value) || simdjson::to_json_string(value).get(level)) return 0;
  if (document["total"].get(value) || simdjson::to_json_string(value).get(total)) return 0;
  return id.size() + level.size() + total.size();
}

#ifdef YYJSON
static size_t yyjson_three(const std::string &text) {
  yyjson_doc *document = yyjson_read(text.data(), text.size(), 0);
  if (document == nullptr) return 0;
  size_t found = 0;
  for (const char *pointer : {"/id", "/user/level", "/total"}) found += yyjson_doc_ptr_get(document, pointer) != nullptr;
  yyjson_doc_free(document);
  return found;
}
#endif

static void measure(size_t length, size_t count, const std::string &call, const std::function<size_t(size_t)> &run) {
  double least = 1e9;
  size_t answer = 0;
  for (int turn = 0; turn < 7; turn++) {
    answer = 0;
    double start = now();
    for (size_t i = 0; i < count; i++) answer += run(i);
    double took = now() - start;
    if (took < least) least = took;
  }
  std::printf("%6zu %-46s %9.0f  %.1f\n", length, call.c_str(), least * 1e9 / count, double(answer) / count);
}

int main(int count, char **words) {
  const size_t all = count > 1 ? std::strtoul(words[1], nullptr, 10) : 20000000;
  std::mt19937 random(1);
  std::printf("%6s %-46s %9s  %s\n", "bytes", "call", "ns", "answer");
  for (size_t length : {200, 1000, 10000}) {
    std::vector<std::string> texts;
    std::vector<simdjson::padded_string> padded;
    for (size_t i = 0; i < all / length; i++) texts.push_back(request(random, length));
    for (const std::string &text : texts) padded.emplace_back(text);
    const size_t documents = texts.size();
#ifndef ONLY_SIMDJSON
    jihluka_error error = {0, 0, 0, 0};
    jihluka_span spans[3] = {{0, 0}, {0, 0}, {0, 0}};
    auto sizes = [&] { return spans[0].end - spans[0].start + spans[1].end - spans[1].start + spans[2].end - spans[2].start; };
    using Call = uint32_t (*)(const uint8_t *, size_t, const uint8_t *, size_t, jihluka_span *, jihluka_error *);
    auto each = [&](Call call, size_t i) {
      for (size_t path = 0; path < 3; path++) {
        if (call(bytes(texts[i]), texts[i].size(), bytes(PATHS[path]), std::string_view(PATHS[path]).size(), &spans[path], &error) != JIHLUKA_OK) return size_t(0);
      }
      return sizes();
    };
    using Many = uint32_t (*)(const uint8_t *, size_t, const uint8_t *, size_t, jihluka_span *, size_t, jihluka_error *);
    auto many = [&](Many call, size_t i) {
      if (call(bytes(texts[i]), texts[i].size(), bytes(LINES), sizeof LINES - 1, spans, 3, &error) != JIHLUKA_OK) return size_t(0);
      return sizes();
    };
    measure(length, documents, "jihluka_validate" + processors, [&](size_t i) { return size_t(jihluka_validate(bytes(texts[i]), texts[i].size(), &error) == JIHLUKA_OK); });
    measure(length, documents, "jihluka_get, three times" + processors, [&](size_t i) { return each(jihluka_get, i); });
    measure(length, documents, "jihluka_get_unchecked, three times" + processors, [&](size_t i) { return each(jihluka_get_unchecked, i); });
    measure(length, documents, "jihluka_get_many" + processors, [&](size_t i) { return many(jihluka_get_many, i); });
    measure(length, documents, "jihluka_get_many_unchecked" + processors, [&](size_t i) { return many(jihluka_get_many_unchecked, i); });
    // How much of it is the reading of the paths.
    measure(length, documents, "jihluka_get_many, of no document" + processors, [&](size_t) {
      return size_t(jihluka_get_many(nullptr, 0, bytes(LINES), sizeof LINES - 1, spans, 3, &error) == JIHLUKA_DOCUMENT_ERROR);
    });
    jihluka_paths paths = JIHLUKA_NO_PATHS;
    if (jihluka_paths_new(bytes(LINES), sizeof LINES - 1, JIHLUKA_KEYS_FIRST, &paths, &error) != JIHLUKA_OK) return 1;
    using With = uint32_t (*)(const uint8_t *, size_t, jihluka_paths *, jihluka_span *, size_t, jihluka_error *);
    auto with = [&](With call, size_t i) {
      if (call(bytes(texts[i]), texts[i].size(), &paths, spans, 3, &error) != JIHLUKA_OK) return size_t(0);
      return sizes();
    };
    measure(length, documents, "jihluka_get_many_with" + processors, [&](size_t i) { return with(jihluka_get_many_with, i); });
    measure(length, documents, "jihluka_get_many_with_unchecked" + processors, [&](size_t i) { return with(jihluka_get_many_with_unchecked, i); });
    measure(length, documents, "jihluka_get_many_with, of no document" + processors, [&](size_t) {
      return size_t(jihluka_get_many_with(nullptr, 0, &paths, spans, 3, &error) == JIHLUKA_DOCUMENT_ERROR);
    });
    jihluka_paths_free(&paths);
#ifdef YYJSON
    measure(length, documents, "yyjson, read and three pointers", [&](size_t i) { return yyjson_three(texts[i]); });
#endif
#endif
#ifndef ONLY_LIBRARY
    ondemand::parser parser;
    std::string name = "simdjson On-Demand, " + std::string(simdjson::get_active_implementation()->name());
    measure(length, documents, name, [&](size_t i) { return ondemand_three(parser, padded[i]); });
#endif
  }
}
