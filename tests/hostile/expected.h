// What each call has to give.
#ifndef EXPECTED_H
#define EXPECTED_H

#include "call.h"

#include <optional>

// What the reference knows of a sheet that is lent. It finds paths and the solution once, when they are first asked for.
class Known {
    std::map<Tableau, Path> paths;
    std::optional<Solution> found;

public:
    const Lists lists;
    const int refusal; // of the sheet check
    const Sheet sheet, extended; // both empty if the lists are refused

    explicit Known(const Lists &lists);
    explicit Known(const Sheet &sheet) : Known(lists_of(sheet)) {}
    Known(const Known &) = delete;
    Path &path_from(const Tableau &tableau);
    Path &path_from_start() { return path_from(start(extended)); }
    const Solution &solution();
};

// How many places the lists that a call may fill need.
std::vector<size_t> needs_of(Known &known, const Call &call);

Outcome expected(Known &known, const Call &call);

#endif
