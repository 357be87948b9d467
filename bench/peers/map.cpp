// Puts the lines of its input, up to an empty one, into a std::map, each with its number.
#include <iostream>
#include <map>
#include <string>

int main() {
    std::ios::sync_with_stdio(false);
    std::map<std::string, std::size_t> paths;
    std::string line;
    for (std::size_t number = 0; std::getline(std::cin, line) && !line.empty(); ++number) {
        paths.emplace(std::move(line), number);
    }
    std::cout << paths.size() << '\n';
}
