// Random sheets for the tests and the benchmark.
#ifndef SHEETS_H
#define SHEETS_H

#include <cstddef>
#include <cstdint>
#include <random>
#include <vector>

using Numbers = std::vector<uint64_t>;
using Whole = std::vector<int64_t>;

struct Sheet {
    Numbers supply, demand;
    Whole cost;
    size_t m() const { return supply.size(); }
    size_t n() const { return demand.size(); }
};

// A balanced sheet: bags up to `bags` a party before the totals are made equal, costs from `low` to `high`.
inline Sheet random_sheet(std::mt19937_64 &rng, size_t m, size_t n, uint64_t bags, int64_t low, int64_t high) {
    Sheet s;
    int64_t over = 0;
    for (size_t i = 0; i < m; i++) {
        s.supply.push_back(1 + rng() % bags);
        over += (int64_t)s.supply[i];
    }
    for (size_t j = 0; j < n; j++) {
        s.demand.push_back(1 + rng() % bags);
        over -= (int64_t)s.demand[j];
    }
    for (; over < 0; over++) s.supply[rng() % m]++;
    for (; over > 0; over--) s.demand[rng() % n]++;
    for (size_t k = 0; k < m * n; k++) s.cost.push_back(low + (int64_t)(rng() % (uint64_t)(high - low + 1)));
    return s;
}

// The sheet with a surplus: roasteries have up to `bags` bags more, one of them at least 1.
inline Sheet with_surplus(std::mt19937_64 &rng, Sheet s, uint64_t bags) {
    for (uint64_t &supply : s.supply)
        if (rng() % 2 == 0) supply += rng() % (bags + 1);
    s.supply[rng() % s.m()]++;
    return s;
}

#endif
