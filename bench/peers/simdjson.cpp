// The program's contract by simdjson On-Demand: path lines, an empty line and a document come in,
// and `LEN TEXT` or `-` goes out for each path. One walk serves all paths, and ends with the last of
// them. The status is 1 where the document is refused; then the reason goes to standard error.
// On-Demand checks the UTF-8 and the strings' ends of all the document, but no more of what it passes
// over or gives as text.
#include <simdjson.h>
#include <unistd.h>

#include <cstdio>
#include <cstdlib>
#include <map>
#include <optional>
#include <string>
#include <string_view>
#include <vector>

namespace ondemand = simdjson::ondemand;
using simdjson::error_code;
using std::string_view;

// The paths as a tree. No path goes on where another one ends.
struct Node {
  std::map<std::string, Node, std::less<>> members;
  std::map<uint64_t, Node> elements;
  // The numbers of the paths that end here.
  std::vector<size_t> paths;
  // Of equal keys the first one counts.
  bool seen = false;
};

struct Walk {
  std::vector<std::optional<string_view>> texts;
  // How many of them are still to be found.
  size_t missing;

  error_code visit(ondemand::value value, Node &node) {
    node.seen = true;
    if (!node.paths.empty()) return keep(value, node);
    if (!node.members.empty()) return visit_members(value, node);
    return visit_elements(value, node);
  }

  error_code keep(ondemand::value value, const Node &node) {
    string_view text;
    if (auto error = simdjson::to_json_string(value).get(text)) return error;
    for (size_t path : node.paths) texts[path] = text;
    missing -= node.paths.size();
    return simdjson::SUCCESS;
  }

  error_code visit_members(ondemand::value value, Node &node) {
    ondemand::object object;
    if (auto error = value.get_object().get(object)) return error;
    for (auto member : object) {
      string_view key;
      if (auto error = member.unescaped_key().get(key)) return error;
      auto found = node.members.find(key);
      if (found == node.members.end() || found->second.seen) continue;
      ondemand::value inner;
      if (auto error = member.value().get(inner)) return error;
      if (auto error = visit(inner, found->second)) return error;
      if (missing == 0) break;
    }
    return simdjson::SUCCESS;
  }

  error_code visit_elements(ondemand::value value, Node &node) {
    ondemand::array array;
    if (auto error = value.get_array().get(array)) return error;
    uint64_t index = 0;
    auto next = node.elements.begin();
    for (auto element : array) {
      if (index++ != next->first) continue;
      ondemand::value inner;
      if (auto error = element.get(inner)) return error;
      if (auto error = visit(inner, next->second)) return error;
      if (++next == node.elements.end()) return simdjson::SUCCESS;
    }
    return simdjson::INDEX_OUT_OF_BOUNDS;
  }
};

// All of standard input, with the room behind it that simdjson wants.
struct Input {
  char *bytes = nullptr;
  size_t size = 0;
  size_t room = 1 << 20;

  bool read_all() {
    for (;;) {
      bytes = static_cast<char *>(std::realloc(bytes, room + simdjson::SIMDJSON_PADDING));
      if (!bytes) return false;
      while (size < room) {
        ssize_t got = read(STDIN_FILENO, bytes + size, room - size);
        if (got <= 0) return got == 0;
        size += got;
      }
      room *= 2;
    }
  }
};

// Puts a path into the tree.
error_code add_path(Node &root, string_view line, size_t number) {
  simdjson::dom::parser parser;
  simdjson::dom::array steps;
  if (auto error = parser.parse(line.data(), line.size()).get(steps)) return error;
  Node *node = &root;
  for (auto step : steps) {
    string_view key;
    uint64_t index;
    if (!step.get(key)) {
      node = &node->members[std::string(key)];
    } else if (!step.get(index)) {
      node = &node->elements[index];
    } else {
      return simdjson::INCORRECT_TYPE;
    }
  }
  node->paths.push_back(number);
  return simdjson::SUCCESS;
}

// Follows the paths in the document that the parser has.
error_code follow(ondemand::parser &parser, simdjson::padded_string_view text, Node root, Walk &walk) {
  ondemand::document document;
  ondemand::value value;
  if (auto error = parser.iterate(text).get(document)) return error;
  if (auto error = document.get_value().get(value)) return error;
  return walk.visit(value, root);
}

// Looks up so many times, and reports what the last look-up found.
error_code answer(const Input &input, int times, std::string &report) {
  string_view rest(input.bytes, input.size);
  Node root;
  size_t paths = 0;
  for (;;) {
    string_view line = rest.substr(0, rest.find('\n'));
    rest.remove_prefix(std::min(line.size() + 1, rest.size()));
    if (line.empty()) break;
    if (auto error = add_path(root, line, paths++)) return error;
  }

  ondemand::parser parser;
  simdjson::padded_string_view text(rest.data(), rest.size(), rest.size() + simdjson::SIMDJSON_PADDING);
  Walk walk;
  for (int time = 0; time < times; time++) {
    walk = {std::vector<std::optional<string_view>>(paths), paths};
    if (auto error = follow(parser, text, root, walk)) return error;
  }

  for (auto &found : walk.texts) {
    if (found) {
      report.append(std::to_string(found->size())).append(" ").append(*found).append("\n");
    } else {
      report.append("-\n");
    }
  }
  return simdjson::SUCCESS;
}

// A number says how often the paths are followed, so that a look-up can be measured by itself.
int main(int count, char **words) {
  Input input;
  if (!input.read_all()) return 5;
  std::string report;
  if (auto error = answer(input, count > 1 ? std::atoi(words[1]) : 1, report)) {
    std::fprintf(stderr, "%s\n", simdjson::error_message(error));
    return 1;
  }
  return std::fwrite(report.data(), 1, report.size(), stdout) == report.size() ? 0 : 6;
}
