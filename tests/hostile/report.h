// Counts tests, and tells them.
#ifndef REPORT_H
#define REPORT_H

#include <cstddef>
#include <cstdint>
#include <functional>
#include <string>
#include <utility>
#include <vector>

void test(const std::string &name, bool good);
// Prints 'N passed, M failed', and gives the status to exit with.
int tell_count();

// As printf '%b' of a shell takes it.
std::string escaped(const std::string &bytes);

// What the cases of a kind were, so that a run tells what it has seen.
class Tally {
    std::vector<std::pair<std::string, uint64_t>> counts;
    uint64_t refusals[12] = {};

    uint64_t &count_of(const std::string &what);

public:
    uint64_t differ = 0;
    void count(const std::string &what, uint64_t by = 1) { count_of(what) += by; }
    void note_most(const std::string &what, uint64_t number);
    void refused(int number) { refusals[number]++; }
    std::string told() const;
};

struct Cases {
    uint64_t seed, count, first;
};

// From the arguments SEED COUNT and perhaps FIRST.
Cases cases_of(int count, char **arguments);

struct Case {
    uint64_t seed, number;
    size_t kind;
    std::string name;
};
using RunCase = std::function<void(const Case &, Tally &)>;

void test_kinds(const std::vector<std::string> &names, const Cases &cases, const RunCase &run_case);

// Runs the cases, of each kind in turn. A kind is one test.
template <class Kind> void test_kinds(const std::vector<Kind> &kinds, const Cases &cases, const RunCase &run_case) {
    std::vector<std::string> names;
    for (const Kind &kind : kinds) names.push_back(kind.name);
    test_kinds(names, cases, run_case);
}

#endif
