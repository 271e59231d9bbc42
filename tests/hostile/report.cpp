#include "report.h"

#include <algorithm>
#include <cstdio>

static int passed = 0, failed = 0;

void test(const std::string &name, bool good) {
    (good ? passed : failed)++;
    std::printf("%s: %s\n", good ? "passed" : "failed", name.c_str());
}

int tell_count() {
    std::printf("%d passed, %d failed\n", passed, failed);
    return failed > 0;
}

std::string escaped(const std::string &bytes) {
    std::string shown;
    for (char byte : bytes) {
        char code[5];
        std::snprintf(code, sizeof code, "\\x%02x", (unsigned char)byte);
        if (byte == '\n') shown += "\\n";
        else if (byte < ' ' || byte > '~' || byte == '\\' || byte == '\'') shown += code;
        else shown += byte;
    }
    return "'" + shown + "'";
}

uint64_t &Tally::count_of(const std::string &what) {
    auto is_it = [&](const auto &entry) { return entry.first == what; };
    auto found = std::find_if(counts.begin(), counts.end(), is_it);
    if (found != counts.end()) return found->second;
    counts.push_back({what, 0});
    return counts.back().second;
}

void Tally::note_most(const std::string &what, uint64_t number) {
    uint64_t &most = count_of(what);
    most = std::max(most, number);
}

std::string Tally::told() const {
    std::string line;
    auto add = [&](const std::string &what, uint64_t count) {
        if (count > 0) line += (line.empty() ? "" : ", ") + what + " " + std::to_string(count);
    };
    for (const auto &[what, count] : counts) add(what, count);
    for (size_t number = 1; number < std::size(refusals); number++) add("refused " + std::to_string(number) + ":", refusals[number]);
    add("DIFFER", differ);
    return line;
}

Cases cases_of(int count, char **arguments) {
    return {std::stoull(arguments[0]), std::stoull(arguments[1]), count > 2 ? std::stoull(arguments[2]) : 0};
}

void test_kinds(const std::vector<std::string> &names, const Cases &cases, const RunCase &run_case) {
    std::vector<Tally> tallies(names.size());
    for (uint64_t number = cases.first; number < cases.first + cases.count; number++) {
        size_t kind = number % names.size();
        std::string name = "seed " + std::to_string(cases.seed) + ", case " + std::to_string(number) + " of " + names[kind];
        try {
            run_case({cases.seed, number, kind, name}, tallies[kind]);
        } catch (...) {
            std::printf("%s breaks off\n", name.c_str());
            throw;
        }
    }
    for (size_t kind = 0; kind < names.size(); kind++) test(names[kind] + ": " + tallies[kind].told(), tallies[kind].differ == 0);
}
