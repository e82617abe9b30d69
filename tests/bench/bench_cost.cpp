// What nlohmann's JSON for Modern C++ takes for a patch, for `bench.py cost`.
//
//     bench_cost WAY COUNT
//
// The first line of the input is a document, each other the operations of a patch. The patches are made COUNT times in all, from the
// first line to the last and again. The answer is the nanoseconds of one.
//
// - `text`: the document is kept as a text; a patch parses it and the operations, and writes the patched document as a text.
// - `tree`: the document is kept in memory; a patch parses the operations, and `patch` patches a copy of the document.
// - `place`: the same, but `patch_inplace` changes the document itself. If an operation fails, those before it stay.
#include <nlohmann/json.hpp>

#include <chrono>
#include <cstdlib>
#include <iostream>
#include <string>
#include <vector>

using nlohmann::json;

static void patch(const std::string &way, std::string &text, json &tree, const std::string &operations) {
    if (way == "text") {
        text = json::parse(text).patch(json::parse(operations)).dump();
    } else if (way == "tree") {
        tree = tree.patch(json::parse(operations));
    } else {
        tree.patch_inplace(json::parse(operations));
    }
}

int main(int, char **words) {
    const std::string way = words[1];
    const long count = std::atol(words[2]);
    std::string text, line;
    std::getline(std::cin, text);
    std::vector<std::string> lines;
    while (std::getline(std::cin, line)) {
        lines.push_back(line);
    }
    json tree = json::parse(text);
    const auto start = std::chrono::steady_clock::now();
    for (long made = 0; made < count; made++) {
        patch(way, text, tree, lines[made % lines.size()]);
    }
    const std::chrono::duration<double, std::nano> took = std::chrono::steady_clock::now() - start;
    std::cout << took.count() / count << "\n";
}
