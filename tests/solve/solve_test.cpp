// Holds solve to answers found another way: small sheets to a search through all plans and to rounds made in the plainest way, large sheets to such rounds and
// to a certificate; and refusals. All on balanced sheets and on sheets with a surplus, with costs of both signs, with and without parties at 0.
#include "../../crates/exports/panel.h"
#include "../sheets.h"

#include <algorithm>
#include <cstdio>
#include <functional>
#include <numeric>
#include <string>
#include <utility>

// What solve answers, with lists that are `spare` places longer than needed and were filled with a mark before.
const uint64_t mark = 0x5a5a5a5a;
struct Answer {
    int refused;
    int64_t cost;
    uint64_t rounds;
    Whole u, v;
    Numbers plan;
    bool rest_kept;
};

static Answer solve(const Sheet &s, size_t spare) {
    size_t m = s.m(), n = s.n();
    Whole u(m + spare, (int64_t)mark), v(n + spare, (int64_t)mark);
    Numbers plan(m * n + spare, mark);
    panel_solve_result r = panel_solve(s.supply.data(), m, s.demand.data(), n, s.cost.data(), s.cost.size(), u.data(), u.size(), v.data(), v.size(),
                                       plan.data(), plan.size());
    Answer a;
    a.refused = r.refusal;
    a.cost = r.cost;
    a.rounds = r.rounds;
    a.rest_kept = true;
    for (size_t k = m; k < u.size(); k++) a.rest_kept &= u[k] == (int64_t)mark;
    for (size_t k = n; k < v.size(); k++) a.rest_kept &= v[k] == (int64_t)mark;
    for (size_t k = m * n; k < plan.size(); k++) a.rest_kept &= plan[k] == mark;
    u.resize(m);
    v.resize(n);
    plan.resize(m * n);
    a.u = u;
    a.v = v;
    a.plan = plan;
    return a;
}

static int64_t cost_of(const Sheet &s, const Numbers &plan) {
    int64_t sum = 0;
    for (size_t k = 0; k < plan.size(); k++) sum += (int64_t)plan[k] * s.cost[k];
    return sum;
}

static uint64_t total(const Numbers &list) { return std::accumulate(list.begin(), list.end(), uint64_t{0}); }

static uint64_t surplus(const Sheet &s) { return total(s.supply) - total(s.demand); }

// The numbers of the parties left, those whose amount is not 0. The others are struck before the start.
static std::vector<size_t> left_of(const Numbers &amounts) {
    std::vector<size_t> left;
    for (size_t k = 0; k < amounts.size(); k++)
        if (amounts[k] > 0) left.push_back(k);
    return left;
}

// The numbers in these places.
template <class Number> static std::vector<Number> chosen(const std::vector<Number> &list, const std::vector<size_t> &places) {
    std::vector<Number> few;
    for (size_t place : places) few.push_back(list[place]);
    return few;
}

// Of numbers for all lanes, those for the lanes between parties left.
template <class Number> static std::vector<Number> chosen_lanes(const Sheet &s, const std::vector<Number> &list) {
    std::vector<size_t> lanes;
    for (size_t i : left_of(s.supply))
        for (size_t j : left_of(s.demand)) lanes.push_back(i * s.n() + j);
    return chosen(list, lanes);
}

// The sheet of the parties left, numbered among themselves.
static Sheet struck(const Sheet &s) { return {chosen(s.supply, left_of(s.supply)), chosen(s.demand, left_of(s.demand)), chosen_lanes(s, s.cost)}; }

// The bags that a roastery does not send.
static uint64_t kept(const Sheet &s, const Numbers &plan, size_t i) {
    uint64_t sent = 0;
    for (size_t j = 0; j < s.n(); j++) sent += plan[i * s.n() + j];
    return s.supply[i] - sent;
}

// ---- a search through all plans: the first of least cost, where more on an earlier lane comes first

static Numbers best_plan(const Sheet &s) {
    size_t m = s.m(), n = s.n();
    Numbers plan(m * n, 0), best, left = s.supply, wanted = s.demand;
    int64_t least = INT64_MAX;
    uint64_t spare = surplus(s); // the bags that may still be kept
    std::function<void(size_t)> go = [&](size_t k) {
        if (k == m * n) {
            for (uint64_t d : wanted)
                if (d != 0) return;
            int64_t c = cost_of(s, plan);
            if (c < least) {
                least = c;
                best = plan;
            }
            return;
        }
        size_t i = k / n, j = k % n;
        bool last = j + 1 == n;
        uint64_t top = std::min(left[i], wanted[j]);
        uint64_t low = last ? left[i] - std::min(left[i], spare) : 0;
        for (uint64_t x = top + 1; x-- > low;) {
            plan[k] = x;
            left[i] -= x;
            wanted[j] -= x;
            if (last) spare -= left[i];
            go(k + 1);
            if (last) spare += left[i];
            left[i] += x;
            wanted[j] += x;
        }
        plan[k] = 0;
    };
    go(0);
    return best;
}

// ---- rounds in the plainest way: amounts are pairs of bags and marks, and the loop is found by a walk through the basic cells

// The sheet of the tableaux: an extra café, the last one, takes the surplus at cost 0.
static Sheet extended(const Sheet &s) {
    if (surplus(s) == 0) return s;
    Sheet e = {s.supply, s.demand, {}};
    e.demand.push_back(surplus(s));
    for (size_t k = 0; k < s.cost.size(); k++) {
        e.cost.push_back(s.cost[k]);
        if (k % s.n() + 1 == s.n()) e.cost.push_back(0);
    }
    return e;
}

using Amount = std::pair<int64_t, int64_t>;
struct Basic {
    size_t row, col;
    Amount amount;
};

static Amount plus(Amount a, Amount b, int sign) { return {a.first + sign * b.first, a.second + sign * b.second}; }

static std::vector<Basic> corner_start(const Sheet &s) {
    size_t m = s.m(), n = s.n(), i = 0, j = 0;
    std::vector<Amount> left, wanted;
    for (uint64_t x : s.supply) left.push_back({(int64_t)x, 1});
    for (uint64_t x : s.demand) wanted.push_back({(int64_t)x, 0});
    wanted[n - 1].second = (int64_t)m;
    std::vector<Basic> cells;
    while (cells.size() < m + n - 1) {
        Amount x = std::min(left[i], wanted[j]);
        cells.push_back({i, j, x});
        left[i] = plus(left[i], x, -1);
        wanted[j] = plus(wanted[j], x, -1);
        if (left[i] == Amount{0, 0}) i++;
        else j++;
    }
    return cells;
}

static void price(const Sheet &s, const std::vector<Basic> &cells, Whole &u, Whole &v) {
    std::vector<bool> row(s.m(), false), col(s.n(), false);
    u.assign(s.m(), 0);
    v.assign(s.n(), 0);
    row[0] = true;
    for (size_t pass = 0; pass < cells.size(); pass++)
        for (auto &c : cells) {
            int64_t cost = s.cost[c.row * s.n() + c.col];
            if (row[c.row] && !col[c.col]) {
                v[c.col] = cost - u[c.row];
                col[c.col] = true;
            } else if (col[c.col] && !row[c.row]) {
                u[c.row] = cost - v[c.col];
                row[c.row] = true;
            }
        }
}

// The cells from a row to a column, in turn by row and by column.
static bool walk(const std::vector<Basic> &cells, bool at_row, size_t at, size_t to, size_t last, std::vector<size_t> &path) {
    if (!at_row && at == to) return true;
    for (size_t k = 0; k < cells.size(); k++) {
        if (k == last || (at_row ? cells[k].row : cells[k].col) != at) continue;
        path.push_back(k);
        if (walk(cells, !at_row, at_row ? cells[k].col : cells[k].row, to, k, path)) return true;
        path.pop_back();
    }
    return false;
}

// The rounds to the first finished tableau, and its prices.
static uint64_t rounds_of_tableaux(const Sheet &s, Whole &u, Whole &v) {
    std::vector<Basic> cells = corner_start(s);
    for (uint64_t rounds = 0;; rounds++) {
        price(s, cells, u, v);
        int64_t least = 0;
        size_t row = 0, col = 0;
        for (size_t i = 0; i < s.m(); i++)
            for (size_t j = 0; j < s.n(); j++) {
                int64_t reduced = s.cost[i * s.n() + j] - u[i] - v[j];
                if (reduced < least) {
                    least = reduced;
                    row = i;
                    col = j;
                }
            }
        if (least == 0) return rounds;
        std::vector<size_t> path;
        walk(cells, true, row, col, cells.size(), path);
        size_t out = path[0];
        for (size_t k = 0; k < path.size(); k += 2)
            if (cells[path[k]].amount < cells[out].amount) out = path[k];
        Amount step = cells[out].amount;
        for (size_t k = 0; k < path.size(); k++) cells[path[k]].amount = plus(cells[path[k]].amount, step, k % 2 == 0 ? -1 : 1);
        cells[out] = {row, col, step};
    }
}

// The prices at their own numbers; then a struck café's, the least cost - u over the roasteries left; then a struck roastery's, the least cost - v over all
// cafés.
static void price_all(const Sheet &s, const Whole &u_left, const Whole &v_left, Whole &u, Whole &v) {
    std::vector<size_t> rows = left_of(s.supply), cols = left_of(s.demand);
    u.assign(s.m(), INT64_MAX);
    v.assign(s.n(), INT64_MAX);
    for (size_t k = 0; k < rows.size(); k++) u[rows[k]] = u_left[k];
    for (size_t k = 0; k < cols.size(); k++) v[cols[k]] = v_left[k];
    for (size_t j = 0; j < s.n(); j++)
        if (s.demand[j] == 0)
            for (size_t i : rows) v[j] = std::min(v[j], s.cost[i * s.n() + j] - u[i]);
    for (size_t i = 0; i < s.m(); i++)
        if (s.supply[i] == 0)
            for (size_t j = 0; j < s.n(); j++) u[i] = std::min(u[i], s.cost[i * s.n() + j] - v[j]);
}

// The rounds of the parties left, of the extended sheet, and all prices but that of the extra café.
static uint64_t plain_rounds(const Sheet &s, Whole &u, Whole &v) {
    Sheet e = extended(s);
    Whole u_left, v_left;
    uint64_t rounds = rounds_of_tableaux(struck(e), u_left, v_left);
    price_all(e, u_left, v_left, u, v);
    v.resize(s.n());
    return rounds;
}

// ---- a certificate for large sheets

// Each roastery sends at most its supply, and each café gets its demand.
static bool meets(const Sheet &s, const Numbers &plan) {
    Numbers left = s.supply, wanted = s.demand;
    for (size_t i = 0; i < s.m(); i++)
        for (size_t j = 0; j < s.n(); j++) {
            uint64_t x = plan[i * s.n() + j];
            if (x > left[i] || x > wanted[j]) return false;
            left[i] -= x;
            wanted[j] -= x;
        }
    for (uint64_t x : wanted)
        if (x != 0) return false;
    return true;
}

static int64_t greatest(const Whole &prices) { return *std::max_element(prices.begin(), prices.end()); }

// No lane costs less than its prices, and a lane with bags costs just them: the plan is of least cost. With a surplus this has to hold of the lanes of the
// extra café too. They cost 0, so with its price w no u + w is above 0, and a roastery that keeps bags has u + w = 0: hence none has a greater u. Since w is
// not given, that is what is asked; and where it holds, w = -(the greatest u) is a price that fits.
static bool priced(const Sheet &s, const Answer &a) {
    for (size_t i = 0; i < s.m(); i++) {
        for (size_t j = 0; j < s.n(); j++) {
            int64_t reduced = s.cost[i * s.n() + j] - a.u[i] - a.v[j];
            if (reduced < 0 || (a.plan[i * s.n() + j] > 0 && reduced > 0)) return false;
        }
        if (kept(s, a.plan, i) > 0 && a.u[i] != greatest(a.u)) return false;
    }
    return a.u[left_of(s.supply)[0]] == 0;
}

// The answer for the sheet of the parties left is the same on these.
static bool stands_without_struck(const Sheet &s, const Answer &a) {
    Answer b = solve(struck(s), 0);
    return b.refused == 0 && b.cost == a.cost && b.rounds == a.rounds && b.u == chosen(a.u, left_of(s.supply)) && b.v == chosen(a.v, left_of(s.demand)) &&
           b.plan == chosen_lanes(s, a.plan);
}

// The answer as one for the extended sheet: what is kept goes to the extra café, at the price that fits.
static Answer extended(const Sheet &s, const Answer &a) {
    if (surplus(s) == 0) return a;
    Answer e = a;
    e.plan.clear();
    for (size_t k = 0; k < a.plan.size(); k++) {
        e.plan.push_back(a.plan[k]);
        if (k % s.n() + 1 == s.n()) e.plan.push_back(kept(s, a.plan, k / s.n()));
    }
    e.v.push_back(-greatest(a.u));
    return e;
}

// On no lane of reduced cost 0 more can be carried by moving bags on such lanes after it: no way leads back from its sink to its source. On an extended sheet
// that is so of all its lanes exactly if it is of those without the extra café: when all else in a row stays, so does what the roastery keeps.
static bool settled(const Sheet &s, const Answer &a) {
    size_t m = s.m(), n = s.n();
    for (size_t lane = 0; lane < m * n; lane++) {
        auto tight = [&](size_t k) { return s.cost[k] == a.u[k / n] + a.v[k % n]; };
        if (!tight(lane)) continue;
        std::vector<bool> row(m, false), col(n, false);
        std::vector<std::pair<bool, size_t>> open = {{false, lane % n}};
        col[lane % n] = true;
        while (!open.empty()) {
            auto [is_row, at] = open.back();
            open.pop_back();
            for (size_t k = lane + 1; k < m * n; k++) {
                if (is_row && k / n == at && tight(k) && !col[k % n]) {
                    col[k % n] = true;
                    open.push_back({false, k % n});
                }
                if (!is_row && k % n == at && a.plan[k] > 0 && !row[k / n]) {
                    row[k / n] = true;
                    open.push_back({true, k / n});
                }
            }
        }
        if (row[lane / n]) return false;
    }
    return true;
}

// ---- the tests

static int passed = 0, failed = 0;

static void test(const std::string &name, bool good) {
    (good ? passed : failed)++;
    if (!good) std::printf("failed: %s\n", name.c_str());
}

const int64_t top = 1000000; // the greatest cost; the least is as far below 0

// Costs from `low` to `high`, or only these two.
struct Costs {
    int64_t low, high;
    bool ends = false;
};

static Costs any_costs(std::mt19937_64 &rng) {
    static const std::vector<Costs> all = {{0, 0},  {0, 1},  {0, 50},    {0, top},    {-1, 0},        {-1, 1},          {-5, 5},
                                           {-50, -1}, {-top, 0}, {-top, top}, {-top, 3 - top}, {0, top, true}, {-top, top, true}, {-top, 0, true}};
    return all[rng() % all.size()];
}

// What sheets a test is about.
struct Kind {
    std::string name;
    bool surplus, zeros;
};

// How many of so many parties are left: two in three or so, or one.
static size_t some_left(std::mt19937_64 &rng, size_t count) {
    size_t left = 0;
    if (rng() % 8 != 0)
        for (size_t k = 0; k < count; k++) left += rng() % 3 != 0;
    return std::max<size_t>(left, 1);
}

// The amounts in their order, with zeros between them, so that they are so many.
static Numbers scattered(std::mt19937_64 &rng, Numbers amounts, size_t count) {
    while (amounts.size() < count) amounts.insert(amounts.begin() + (long)(rng() % (amounts.size() + 1)), 0);
    return amounts;
}

static Sheet random_sheet(std::mt19937_64 &rng, const Kind &kind, size_t m, size_t n, uint64_t bags) {
    Costs costs = any_costs(rng);
    Sheet s = kind.zeros ? random_sheet(rng, some_left(rng, m), some_left(rng, n), bags, 0, 0) : random_sheet(rng, m, n, bags, 0, 0);
    if (kind.surplus) s = with_surplus(rng, s, bags);
    s = {scattered(rng, s.supply, m), scattered(rng, s.demand, n), {}};
    for (size_t k = 0; k < m * n; k++)
        s.cost.push_back(costs.ends ? (rng() % 2 == 0 ? costs.low : costs.high) : costs.low + (int64_t)(rng() % (uint64_t)(costs.high - costs.low + 1)));
    return s;
}

static void small_sheets(const Kind &kind) {
    const std::string sheets = "3,000 small sheets " + kind.name;
    std::mt19937_64 rng(11);
    bool plans = true, costs = true, rounds = true, prices = true, kept = true, left = true;
    for (int k = 0; k < 3000; k++) {
        size_t m = 1 + rng() % 4, n = 1 + rng() % 4;
        Sheet s = random_sheet(rng, kind, m, n, m * n > 9 ? 3 : 5);
        Answer a = solve(s, rng() % 3);
        Numbers best = best_plan(s);
        Whole u, v;
        plans &= a.refused == 0 && a.plan == best;
        costs &= a.cost == cost_of(s, best);
        rounds &= a.rounds == plain_rounds(s, u, v);
        prices &= a.u == u && a.v == v;
        kept &= a.rest_kept;
        left &= !kind.zeros || stands_without_struck(s, a);
    }
    test(sheets + ": the plan is the one that a search through all plans finds", plans);
    test(sheets + ": the cost is that plan's", costs);
    test(sheets + ": the rounds are those of the plainest way", rounds);
    test(sheets + ": so are the prices", prices);
    test(sheets + ": places past the result are as they were", kept);
    if (kind.zeros) test(sheets + ": without the parties at 0 all else is the same", left);
}

static void large_sheets(const Kind &kind) {
    const std::string sheets = "300 large sheets " + kind.name;
    std::mt19937_64 rng(13);
    bool least = true, first = true, rounds = true, kept = true, left = true;
    for (int k = 0; k < 300; k++) {
        const uint64_t bags[] = {1, 2, 5, 1000};
        size_t m = 1 + rng() % 32, n = 1 + rng() % (kind.surplus ? 31 : 32);
        Sheet s = random_sheet(rng, kind, m, n, bags[rng() % 4]);
        Answer a = solve(s, 2);
        Whole u, v;
        least &= a.refused == 0 && meets(s, a.plan) && priced(s, a) && a.cost == cost_of(s, a.plan);
        first &= settled(extended(s), extended(s, a));
        rounds &= a.rounds == plain_rounds(s, u, v) && a.u == u && a.v == v;
        kept &= a.rest_kept;
        left &= !kind.zeros || stands_without_struck(s, a);
    }
    test(sheets + ": the plan meets the sheet, and prices show that none costs less", least);
    test(sheets + ": on no lane more can be carried by moving later ones", first);
    test(sheets + ": the rounds and the prices are those of the plainest way", rounds);
    test(sheets + ": places past the result are as they were", kept);
    if (kind.zeros) test(sheets + ": without the parties at 0 all else is the same", left);
}

// A call that is refused by `number`, and changes nothing.
static void refused(const std::string &name, int number, const Sheet &s, size_t u_room, size_t v_room, size_t plan_room) {
    Whole u(u_room, (int64_t)mark), v(v_room, (int64_t)mark);
    Numbers plan(plan_room, mark);
    panel_solve_result r = panel_solve(s.supply.data(), s.m(), s.demand.data(), s.n(), s.cost.data(), s.cost.size(), u.data(), u_room, v.data(), v_room,
                                       plan.data(), plan_room);
    bool kept = u == Whole(u_room, (int64_t)mark) && v == Whole(v_room, (int64_t)mark) && plan == Numbers(plan_room, mark);
    test(name, r.refusal == number && r.cost == 0 && r.rounds == 0 && kept);
}

static void refusals() {
    Sheet worked = {{3, 4}, {5, 2}, {4, 1, 2, 6}};
    refused("no source: 1", 1, {{}, {1}, {}}, 32, 32, 1024);
    refused("33 sinks: 1", 1, {{33}, Numbers(33, 1), Whole(33, 0)}, 64, 64, 2048);
    refused("a cost too few: 2", 2, {{3, 4}, {5, 2}, {4, 1, 2}}, 2, 2, 4);
    refused("a cost too many: 2", 2, {{3, 4}, {5, 2}, {4, 1, 2, 6, 6}}, 2, 2, 4);
    refused("a supply of 1,000,001: 3", 3, {{1000001}, {1000001}, {1}}, 1, 1, 1);
    refused("a demand of 2^64 - 1: 3", 3, {{1}, {UINT64_MAX}, {1}}, 1, 1, 1);
    for (int64_t cost : {top + 1, -top - 1, (int64_t)UINT32_MAX, INT64_MIN, INT64_MIN + 1, INT64_MAX}) {
        refused("a cost of " + std::to_string(cost) + ": 4", 4, {{1000000}, {1000000}, {cost}}, 1, 1, 1);
        refused("a last cost of " + std::to_string(cost) + ": 4", 4, {{3, 4}, {5, 2}, {-4, 1, -2, cost}}, 2, 2, 4);
    }
    refused("more demand than supply: 5", 5, {{2}, {3}, {0}}, 1, 1, 1);
    refused("a supply of 0: 5", 5, {{0}, {2}, {0}}, 1, 1, 1);
    refused("more demand than supply before short lists: 5", 5, {{2}, {3}, {0}}, 0, 0, 0);
    refused("more demand than supply with 32 sinks: 5", 5, {{31}, Numbers(32, 1), Whole(32, 1)}, 1, 32, 32);
    refused("a surplus and 32 sinks: 10", 10, {{40}, Numbers(32, 1), Whole(32, 1)}, 1, 32, 32);
    refused("a surplus of a single bag and 32 sinks: 10", 10, {{33}, Numbers(32, 1), Whole(32, 1)}, 1, 32, 32);
    refused("a surplus and 32 sinks before short lists: 10", 10, {{40}, Numbers(32, 1), Whole(32, 1)}, 0, 0, 0);
    refused("a supply of 1,000,001 before a surplus and 32 sinks: 3", 3, {{1000001}, Numbers(32, 1), Whole(32, 1)}, 1, 32, 32);
    refused("a cost of -1,000,001 before a surplus and 32 sinks: 4", 4, {{40}, Numbers(32, 1), Whole(32, -1000001)}, 1, 32, 32);
    Numbers one_closed(32, 1);
    one_closed[16] = 0;
    refused("32 sinks, one of them closed, and a surplus: 10", 10, {{32}, one_closed, Whole(32, 1)}, 1, 32, 32);
    refused("32 closed sinks and a supply: 10", 10, {{1}, Numbers(32, 0), Whole(32, 1)}, 1, 32, 32);
    refused("32 closed sinks and no supply: 11", 11, {{0}, Numbers(32, 0), Whole(32, 1)}, 1, 32, 32);
    refused("31 closed sinks and a supply: 11", 11, {{1}, Numbers(31, 0), Whole(31, 1)}, 1, 31, 31);
    refused("nothing at all: 11", 11, {{0, 0}, {0, 0}, {4, 1, 2, 6}}, 2, 2, 4);
    refused("a demand of 0: 11", 11, {{2}, {0}, {0}}, 1, 1, 1);
    refused("a demand of 0 before short lists: 11", 11, {{2}, {0}, {0}}, 0, 0, 0);
    refused("a cost of 1,000,001 before a demand of 0: 4", 4, {{2}, {0}, {1000001}}, 1, 1, 1);
    refused("a supply of 1,000,001 before a demand of 0: 3", 3, {{1000001}, {0}, {0}}, 1, 1, 1);
    refused("a closed sink, and v with room for the rest alone: 8", 8, {{2}, {2, 0}, {1, 1}}, 1, 1, 2);
    refused("an empty source, and u with room for the rest alone: 8", 8, {{0, 2}, {2}, {1, 1}}, 1, 1, 2);
    refused("a closed sink, and a plan with room for the rest alone: 8", 8, {{2}, {2, 0}, {1, 1}}, 1, 2, 1);
    refused("a surplus, and v too short: 8", 8, {{3}, {2}, {0}}, 1, 0, 1);
    refused("u too short: 8", 8, worked, 1, 2, 4);
    refused("v too short: 8", 8, worked, 2, 1, 4);
    refused("the plan too short: 8", 8, worked, 2, 2, 3);
    refused("no lists at all: 8", 8, worked, 0, 0, 0);
}

// Solve gives this, and fills no place beyond the cafés of the sheet.
static void solved(const std::string &name, const Sheet &s, int64_t cost, uint64_t rounds, const Whole &u, const Whole &v, const Numbers &plan) {
    Answer a = solve(s, 1);
    test(name, a.refused == 0 && a.cost == cost && a.rounds == rounds && a.u == u && a.v == v && a.plan == plan && a.rest_kept);
}

static void samples() {
    solved("the worked sheet", {{3, 4}, {5, 2}, {4, 1, 2, 6}}, 14, 1, {0, -2}, {4, 1}, {1, 2, 4, 0});
    solved("the tied sheet, settled", {{1, 3}, {2, 1, 1}, {9, 0, 0, 0, 0, 0}}, 0, 2, {0, 0}, {0, 0, 0}, {0, 1, 0, 2, 0, 1});
}

static void samples_with_surplus() {
    solved("one bag of three stays at home", {{3}, {2}, {0}}, 0, 0, {0}, {0}, {2});
    solved("the dear source keeps the surplus", {{3, 3}, {4}, {5, 1}}, 8, 1, {0, -4}, {5}, {1, 3});
    solved("each source keeps a bag", {{3, 3}, {2, 2}, {1, 9, 9, 1}}, 4, 1, {0, 0}, {1, 1}, {2, 0, 0, 2});
    solved("equal costs: the first lane carries all it can", {{3, 3}, {4}, {1, 1}}, 4, 0, {0, 0}, {1}, {3, 1});
    solved("a lane of the extra café enters before a later one", {{1, 2}, {1, 1}, {2, 2, 0, 1}}, 1, 2, {0, 0}, {0, 1}, {0, 0, 1, 1});
    solved("a lane of the extra café enters after an earlier one", {{1, 3}, {2, 1}, {3, 0, 2, 0}}, 4, 2, {0, 0}, {2, 0}, {0, 1, 2, 0});
    solved("31 sinks and a surplus", {{40}, Numbers(31, 1), Whole(31, 1)}, 31, 0, {0}, Whole(31, 1), Numbers(31, 1));
    solved("32 sinks and none", {{32}, Numbers(32, 1), Whole(32, 1)}, 32, 0, {0}, Whole(32, 1), Numbers(32, 1));
    Numbers most(32, 1000000), one_bag(32, 0);
    one_bag[0] = 1;
    solved("the greatest surplus: 32 million bags but one", {most, {1}, Whole(32, 0)}, 0, 0, Whole(32, 0), {0}, one_bag);
}

// The bags and prices are those of the start, and the total is as far from 0 as one can be.
static void full_sheet(const std::string &name, int64_t cost, int64_t total) {
    Numbers plan(1024, 0);
    for (size_t k = 0; k < 32; k++) plan[33 * k] = 1000000;
    solved(name, {Numbers(32, 1000000), Numbers(32, 1000000), Whole(1024, cost)}, total, 0, Whole(32, 0), Whole(32, cost), plan);
}

static void samples_with_earnings() {
    full_sheet("the greatest total: 32 million bags at a million each", top, 32000000000000);
    full_sheet("the least total: 32 million bags that earn a million each", -top, -32000000000000);
    solved("the lane that earns goes full, and the other source keeps the surplus", {{3, 3}, {4}, {1, -5}}, -14, 1, {0, -6}, {1}, {1, 3});
    solved("costs of both signs", {{2, 3}, {1, 2, 2}, {-1, 0, -1, -1, 0, 2}}, -3, 2, {0, 3}, {-4, -3, -1}, {0, 0, 2, 1, 2, 0});
    solved("the least cost of a lane", {{1000000}, {1000000}, {-top}}, -1000000000000, 0, {0}, {-top}, {1000000});
    solved("a lane that earns, and bags that stay all the same", {{5}, {2}, {-3}}, -6, 0, {0}, {-3}, {2});
    solved("bags that earn alike: the first lane carries all it can", {{3, 3}, {4}, {-2, -2}}, -8, 0, {0, 0}, {-2}, {3, 1});
}

static void samples_with_zeros() {
    solved("the first source empty", {{0, 3, 4}, {5, 2}, {7, -3, 4, 1, 2, 6}}, 14, 1, {-4, 0, -2}, {4, 1}, {0, 0, 1, 2, 4, 0});
    solved("the last sink closed", {{3, 4}, {5, 2, 0}, {4, 1, 3, 2, 6, 9}}, 14, 1, {0, -2}, {4, 1, 3}, {1, 2, 0, 4, 0, 0});
    solved("the last sink closed, and a surplus", {{3, 3}, {4, 0}, {5, 7, 1, -2}}, 8, 1, {0, -4}, {5, 2}, {1, 0, 3, 0});
    solved("an empty source priced by a closed sink", {{1, 0}, {1, 0}, {0, 5, 10, -3}}, 0, 0, {0, -8}, {0, 5}, {1, 0, 0, 0});
    Whole nine = {1, 2, 3, 4, 5, 6, 7, 8, 9};
    solved("one lane left", {{0, 5, 0}, {0, 5, 0}, nine}, 25, 0, {-3, 0, 3}, {4, 5, 6}, {0, 0, 0, 0, 5, 0, 0, 0, 0});
    solved("one lane left, and empty sources priced by the extra café", {{0, 5, 0}, {0, 3, 0}, nine}, 15, 0, {-3, 0, 0}, {4, 5, 6},
           {0, 0, 0, 0, 3, 0, 0, 0, 0});
    Numbers one_closed(32, 1);
    one_closed[16] = 0;
    solved("32 sinks, one of them closed", {{31}, one_closed, Whole(32, 1)}, 31, 0, {0}, Whole(32, 1), one_closed);
}

int main() {
    const Kind kinds[] = {
        {"in balance", false, false}, {"with a surplus", true, false}, {"in balance with zeros", false, true}, {"with a surplus and zeros", true, true}};
    for (const Kind &kind : kinds) {
        small_sheets(kind);
        large_sheets(kind);
    }
    refusals();
    samples();
    samples_with_surplus();
    samples_with_earnings();
    samples_with_zeros();
    std::printf("%d passed, %d failed\n", passed, failed);
    return failed == 0 ? 0 : 1;
}
