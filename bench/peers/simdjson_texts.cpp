// What simdjson takes to read a document from standard input into its DOM (`read`), and to write it
// without white space besides (`small`).
#include <cstdio>
#include <string>
#include <string_view>
#include <unistd.h>

#include <simdjson.h>

int main(int count, char **words) {
  std::string bytes;
  bytes.reserve(1 << 28);
  char piece[1 << 16];
  for (ssize_t got; (got = read(STDIN_FILENO, piece, sizeof piece)) > 0;) bytes.append(piece, got);
  bytes.reserve(bytes.size() + simdjson::SIMDJSON_PADDING);

  simdjson::dom::parser parser;
  simdjson::dom::element root;
  if (parser.parse(bytes.data(), bytes.size(), false).get(root)) return 1;
  if (count < 2 || std::string_view(words[1]) == "read") return 0;
  std::string text = simdjson::minify(root);
  return std::fwrite(text.data(), 1, text.size(), stdout) == text.size() ? 0 : 6;
}
