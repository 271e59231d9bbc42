#include "random_lists.h"

#include <algorithm>
#include <numeric>

static const size_t longest = 100'000;
static const uint64_t bit31 = uint64_t{1} << 31, bit32 = uint64_t{1} << 32, bit63 = uint64_t{1} << 63;

// ---- sizes

// Also sizes that are the right one in their last 8 or 16 bits.
static size_t odd_size(Dice &dice, size_t had) {
    return dice.one_of<size_t>({0, 0, 33, 33, 64, had + 1, had + 32, had + 64, had + 256, had + 65'536, had + dice.below(2'000)});
}

// With the numbers that are there again and again.
template <class Number> static void resize(std::vector<Number> &list, size_t size) {
    size_t had = std::max<size_t>(1, list.size());
    size = std::min(size, longest);
    list.resize(size, 1);
    for (size_t k = had; k < size; k++) list[k] = list[k - had];
}

static void change_cost_count(Dice &dice, Lists &lists) {
    size_t m = lists.supply.size(), n = lists.demand.size(), lanes = lists.cost.size();
    switch (dice.below(8)) {
    case 0: return resize(lists.cost, lanes - std::min<size_t>(lanes, 1));
    case 1: return resize(lists.cost, lanes + 1);
    case 2: return resize(lists.cost, 0);
    case 3: return resize(lists.cost, dice.below(lanes + 1));
    case 4: return resize(lists.cost, lanes + 1 + dice.below(100));
    case 5: return resize(lists.cost, dice.one_of({m + n, m + n + 1, m * m, n * n}));
    case 6: return resize(lists.cost, lanes + (size_t)dice.one_of({256, 65'536}));
    default: return resize(lists.cost, full * full);
    }
}

void change_sizes(Dice &dice, Lists &lists) {
    if (dice.once_in(3)) return change_cost_count(dice, lists);
    if (!dice.once_in(3)) resize(lists.supply, odd_size(dice, lists.supply.size()));
    if (!dice.once_in(3)) resize(lists.demand, odd_size(dice, lists.demand.size()));
    size_t lanes = lists.supply.size() * lists.demand.size();
    if (lanes < 10'000 && dice.once_in(2)) resize(lists.cost, lanes);
}

// ---- numbers

static uint64_t odd_amount(Dice &dice, uint64_t bags) {
    return dice.one_of<uint64_t>({0, 1, most, most + 1, seven_nines, bit31, bit32, bit32 + bags, bit63 - 1, bit63, bit63 + bags, UINT64_MAX, -bags,
                                  dice.any()});
}

// The number that has these bits.
static Whole signed_of(uint64_t bits) { return (Whole)bits; }

static Whole odd_cost(Dice &dice, Whole cost) {
    uint64_t bits = (uint64_t)cost;
    return dice.one_of({0, -1, most, -most, most + 1, -most - 1, signed_of(-bits), signed_of(bit31), signed_of(-bit31), signed_of(bit31 + bits),
                        signed_of(bit32), signed_of(bit32 + bits), signed_of(bits - bit32), signed_of(bit63), signed_of(bit63 + bits), INT64_MAX, INT64_MIN + 1,
                        signed_of(dice.any())});
}

template <class Number> static void change_some(Dice &dice, std::vector<Number> &list, Number (*odd)(Dice &, Number)) {
    if (list.empty()) return;
    Number &number = dice.once_in(3) ? list.back() : dice.one_of(list);
    number = odd(dice, number);
}

void change_numbers(Dice &dice, Lists &lists) {
    switch (dice.below(4)) {
    case 0: return change_some(dice, lists.supply, odd_amount);
    case 1: return change_some(dice, lists.demand, odd_amount);
    case 2: return change_some(dice, lists.cost, odd_cost);
    default:
        change_some(dice, lists.supply, odd_amount);
        change_some(dice, lists.cost, odd_cost);
    }
}

// ---- parties at 0

void close_parties(Dice &dice, Lists &lists) {
    Numbers &list = dice.once_in(3) ? lists.supply : lists.demand;
    if (list.empty()) return;
    uint64_t &one = dice.one_of(list);
    switch (dice.below(4)) {
    case 0: one = 0; return;
    case 1: {
        uint64_t bags = one;
        std::fill(list.begin(), list.end(), 0);
        one = bags;
        return;
    }
    case 2: std::fill(lists.supply.begin(), lists.supply.end(), 0); [[fallthrough]];
    default: std::fill(lists.demand.begin(), lists.demand.end(), 0);
    }
}

// ---- totals

// Takes from one what another gets, so that the total stays, perhaps modulo 2^64.
static void shift(Dice &dice, Numbers &list) {
    uint64_t bags = dice.one_of<uint64_t>({1, bit32, bit63, bit63 + 1, dice.any()});
    dice.one_of(list) += bags;
    dice.one_of(list) -= bags;
}

// With so many cafés the extra one, if there is a surplus, just has room or just has none.
static void take_many_cafes(Dice &dice, Lists &lists) {
    resize(lists.demand, dice.one_of<size_t>({full - 1, full - 1, full, full, full + 1}));
    resize(lists.cost, lists.supply.size() * lists.demand.size());
    uint64_t demand = std::accumulate(lists.demand.begin(), lists.demand.end(), uint64_t{0});
    uint64_t supply = std::accumulate(lists.supply.begin() + 1, lists.supply.end(), uint64_t{0});
    lists.supply[0] = demand - supply + dice.one_of<uint64_t>({0, 1, 1, 2, 1'000, UINT64_MAX});
}

void change_totals(Dice &dice, Lists &lists) {
    if (lists.supply.empty() || lists.demand.empty()) return;
    Numbers &list = dice.once_in(2) ? lists.supply : lists.demand;
    switch (dice.below(5)) {
    case 0: return shift(dice, list);
    case 1: dice.one_of(list)++; return;
    case 2: dice.one_of(list)--; return;
    case 3: return take_many_cafes(dice, lists);
    default: std::fill(list.begin(), list.end(), most);
    }
}
