// The panel beside LEMON's network simplex on the same random sheets of four kinds; and set up and
// edits beside solve of the same sheets.
//
//   bench                          times start and run, and solve, beside LEMON, and prints the
//                                  ratios, a line a kind; then set up and edits beside solve
//   bench kinds                    prints the names of the kinds, a line each
//   bench count KIND WHO SHEETS    makes one pass of WHO over so many sheets of the kind (0 to 3),
//                                  for bench/run to count instructions
//
// WHO is lemon, run, solve or set-up; edit-cost or edit-amounts, with one edit a sheet; solve-cost
// or solve-amounts, which are solve of the edited sheets.
//
// Times are taken in one process; passes are interleaved and the least time of each side is taken,
// since other work on the machine only ever adds to a time.
#include "../crates/exports/panel.h"
#include "../tests/sheets.h"

#include <lemon/network_simplex.h>
#include <lemon/smart_graph.h>

#include <algorithm>
#include <chrono>
#include <cstdio>
#include <cstdlib>
#include <string>
#include <utility>

using Graph = lemon::SmartDigraph;
using Simplex = lemon::NetworkSimplex<Graph, int64_t, int64_t>;

// The goals are the most time that an edit should take, as a share of that of solve.
struct Kind {
    const char* name;
    size_t side;
    uint64_t bags;
    int64_t top;
    double cost_goal, amounts_goal;
};

static const Kind kinds[] = {
    {"32 x 32, costs to 1,000", 32, 1000, 1000, 0.35, 1.10},
    {"32 x 32, no ties", 32, 1000, 1000000, 0.35, 1.10},
    {"32 x 32, many ties", 32, 5, 3, 0.35, 1.10},
    {"8 x 8, costs to 1,000", 8, 1000, 1000, 2.00, 2.00},
};
static const size_t kind_count = sizeof kinds / sizeof *kinds;

// A roastery and a café, and what an edit sets: the cost of their lane, or their amounts. Sheet and
// edit exchange what they hold, and so the sheet is edited; a second time undoes it.
struct Edit {
    size_t row, col;
    int64_t cost;
    uint64_t supply, demand;

    void exchange_cost(Sheet& s) { std::swap(cost, s.cost[row * s.n() + col]); }

    void exchange_amounts(Sheet& s) {
        std::swap(supply, s.supply[row]);
        std::swap(demand, s.demand[col]);
    }
};
using Exchange = void (Edit::*)(Sheet&);

// An edit that is accepted: a cost of the kind, and as many bags more, or fewer, at the roastery as
// at the café. The sheet stays balanced, and no party is at 0.
static Edit random_edit(std::mt19937_64& rng, const Kind& kind, const Sheet& s) {
    size_t row = rng() % kind.side, col = rng() % kind.side;
    uint64_t fewer = std::min(s.supply[row], s.demand[col]) - 1, change = rng() % (fewer + kind.bags + 1);
    int64_t cost = (int64_t)(rng() % (uint64_t)(kind.top + 1));
    return {row, col, cost, s.supply[row] - fewer + change, s.demand[col] - fewer + change};
}

// What a pass of edits, or of solve, gives together.
struct Sum {
    int64_t cost = 0;
    uint64_t rounds = 0;
    size_t refused = 0;

    template <class Result> void add(const Result& result) {
        cost += result.cost;
        rounds += result.rounds;
        refused += result.refusal != 0;
    }
};

// The sheets of a kind, set up too, and edits of them; the graph on which LEMON works, and the
// lists that solve and edits fill. All are made before anything is timed or counted.
struct Bench {
    size_t side;
    std::vector<Sheet> all;
    std::vector<panel_standing> standing;
    std::vector<Edit> edits; // of the first sheet, the next, .., the last, the first again, ..
    Graph g;
    std::vector<Graph::Node> nodes;
    std::vector<Graph::Arc> arcs;
    std::vector<int64_t> u, v;
    std::vector<uint64_t> plan;

    Bench(const Kind& kind, size_t sheets, size_t edits_each)
        : side(kind.side), u(side), v(side), plan(side * side) {
        std::mt19937_64 rng(7);
        for (size_t k = 0; k < sheets; k++) all.push_back(random_sheet(rng, side, side, kind.bags, 0, kind.top));
        for (auto& s : all) standing.push_back(set_up_one(s).standing);
        for (size_t k = 0; k < edits_each * sheets; k++) edits.push_back(random_edit(rng, kind, all[k % sheets]));
        for (size_t k = 0; k < 2 * side; k++) nodes.push_back(g.addNode());
        for (size_t i = 0; i < side; i++)
            for (size_t j = 0; j < side; j++) arcs.push_back(g.addArc(nodes[i], nodes[side + j]));
    }

    int64_t lemon_cost(const Sheet& s) const {
        Graph::NodeMap<int64_t> amount(g);
        Graph::ArcMap<int64_t> price(g);
        for (size_t i = 0; i < side; i++) amount[nodes[i]] = (int64_t)s.supply[i];
        for (size_t j = 0; j < side; j++) amount[nodes[side + j]] = -(int64_t)s.demand[j];
        for (size_t k = 0; k < side * side; k++) price[arcs[k]] = s.cost[k];
        Simplex simplex(g);
        simplex.supplyMap(amount).costMap(price).run();
        return simplex.totalCost();
    }

    // One pass over all sheets each. LEMON and solve give the costs together, start and run the rounds.
    int64_t lemon() const {
        int64_t cost = 0;
        for (auto& s : all) cost += lemon_cost(s);
        return cost;
    }

    int64_t run() const {
        uint64_t rounds = 0;
        for (auto& s : all) {
            panel_tableau first = panel_start(s.supply.data(), side, s.demand.data(), side, s.cost.data(), s.cost.size()).tableau;
            rounds += panel_run(s.supply.data(), side, s.demand.data(), side, s.cost.data(), s.cost.size(), first.cells, first.count, UINT32_MAX).rounds;
        }
        return (int64_t)rounds;
    }

    panel_solve_result solve_one(const Sheet& s) {
        return panel_solve(s.supply.data(), side, s.demand.data(), side, s.cost.data(), s.cost.size(), u.data(), side,
                           v.data(), side, plan.data(), plan.size());
    }

    int64_t solve() {
        int64_t cost = 0;
        for (auto& s : all) cost += solve_one(s).cost;
        return cost;
    }

    panel_set_up_result set_up_one(const Sheet& s) const {
        return panel_set_up(s.supply.data(), side, s.demand.data(), side, s.cost.data(), s.cost.size());
    }

    // How many sheets are set up.
    size_t set_up() const {
        size_t count = 0;
        for (auto& s : all) count += set_up_one(s).refusal == 0;
        return count;
    }

    // The k-th edit of a pass: the edits of a sheet come in a row, as at a desk, or the sheets take
    // turns, so that each edit meets a sheet that was not touched for long.
    size_t edit_at(size_t k, bool in_a_row) const {
        const size_t each = edits.size() / all.size();
        return in_a_row ? k % each * all.size() + k / each : k;
    }

    // One pass over all edits each, always of the standing sheets that were set up.
    Sum edit_costs(bool in_a_row) {
        Sum sum;
        for (size_t n = 0; n < edits.size(); n++) {
            const size_t k = edit_at(n, in_a_row);
            const Edit& e = edits[k];
            sum.add(panel_edit_cost(standing[k % all.size()], e.row, e.col, e.cost, u.data(), side, v.data(), side,
                                    plan.data(), plan.size()));
        }
        return sum;
    }

    Sum edit_amounts(bool in_a_row) {
        Sum sum;
        for (size_t n = 0; n < edits.size(); n++) {
            const size_t k = edit_at(n, in_a_row);
            const Edit& e = edits[k];
            sum.add(panel_edit_amounts(standing[k % all.size()], e.row, e.col, e.supply, e.demand, u.data(), side,
                                       v.data(), side, plan.data(), plan.size()));
        }
        return sum;
    }

    // Solve of the edited sheets, in turn.
    Sum solve_edited(Exchange exchange) {
        Sum sum;
        for (size_t k = 0; k < edits.size(); k++) {
            Sheet& s = all[k % all.size()];
            (edits[k].*exchange)(s);
            sum.add(solve_one(s));
            (edits[k].*exchange)(s);
        }
        return sum;
    }
};

template <class F> static double microseconds(F f) {
    auto from = std::chrono::steady_clock::now();
    f();
    return std::chrono::duration<double, std::micro>(std::chrono::steady_clock::now() - from).count();
}

static const size_t sheets = 200, edits_each = 5, passes = 8;

static void compare(const Kind& kind) {
    Bench b(kind, sheets, 0);
    double solves = 1e300, runs = 1e300, lemons = 1e300;
    int64_t rounds = 0, total = 0, least = 0;
    for (size_t p = 0; p < passes; p++) {
        lemons = std::min(lemons, microseconds([&] { least = b.lemon(); }));
        runs = std::min(runs, microseconds([&] { rounds = b.run(); }));
        solves = std::min(solves, microseconds([&] { total = b.solve(); }));
    }
    std::printf("%-24s rounds %6.1f   LEMON %7.1f us   start and run %7.1f us, ratio %.2f   solve %7.1f us, ratio %.2f\n", kind.name, (double)rounds / sheets,
                lemons / sheets, runs / sheets, runs / lemons, solves / sheets, solves / lemons);
    if (total != least) std::puts("the costs differ");
}

// The least time of a pass, and what it gave.
struct Timed {
    double least = 1e300;
    Sum sum;

    template <class F> void pass(F f) {
        least = std::min(least, microseconds([&] { sum = f(); }));
    }

    double each() const { return least / (sheets * edits_each); }
    double rounds() const { return (double)sum.rounds / (sheets * edits_each); }
};

// Edits of one kind, in a row and in turn, and solve of the edited sheets.
struct Edits {
    const char* name;
    double goal;
    Timed row = {}, edit = {}, solve = {};

    // The goal is for edits in a row, beside solve of the sheets.
    void print(double solve_each) const {
        const double ratio = row.each() / solve_each;
        std::printf("   %s %5.1f us, rounds %5.1f, ratio %.2f", name, row.each(), edit.rounds(), ratio);
        if (ratio > goal) std::printf(", above the goal of %.2f", goal);
        std::printf("; in turn %5.1f us, solve %5.1f us, rounds %5.1f, ratio %.2f", edit.each(), solve.each(),
                    solve.rounds(), edit.least / solve.least);
    }

    void print_faults() const {
        if (row.sum.refused + edit.sum.refused + solve.sum.refused > 0) std::printf("%s: some are refused\n", name);
        if (row.sum.cost != solve.sum.cost || edit.sum.cost != solve.sum.cost) std::printf("%s: the costs differ\n", name);
    }
};

static void compare_edits(const Kind& kind) {
    Bench b(kind, sheets, edits_each);
    size_t count = 0;
    double set_ups = 1e300, solves = 1e300;
    Edits costs = {"cost edit", kind.cost_goal}, amounts = {"amounts edit", kind.amounts_goal};
    for (size_t p = 0; p < passes; p++) {
        set_ups = std::min(set_ups, microseconds([&] { count = b.set_up(); }));
        solves = std::min(solves, microseconds([&] { b.solve(); }));
        costs.row.pass([&] { return b.edit_costs(true); });
        costs.edit.pass([&] { return b.edit_costs(false); });
        costs.solve.pass([&] { return b.solve_edited(&Edit::exchange_cost); });
        amounts.row.pass([&] { return b.edit_amounts(true); });
        amounts.edit.pass([&] { return b.edit_amounts(false); });
        amounts.solve.pass([&] { return b.solve_edited(&Edit::exchange_amounts); });
    }
    std::printf("%-24s set up %5.1f us; solve %5.1f us; ratio %.2f", kind.name, set_ups / sheets, solves / sheets,
                set_ups / solves);
    costs.print(solves / sheets);
    amounts.print(solves / sheets);
    std::puts("");
    if (count != sheets) std::puts("set up: some are refused");
    costs.print_faults();
    amounts.print_faults();
    if (amounts.edit.sum.rounds != amounts.solve.sum.rounds) std::puts("amounts edit: the rounds differ");
}

// The one function whose instructions are counted. Its name is plain, so that callgrind can be told of it, and it is never inlined.
extern "C" __attribute__((noinline)) int64_t counted(Bench& b, const std::string& who) {
    if (who == "lemon") return b.lemon();
    if (who == "run") return b.run();
    if (who == "set-up") return (int64_t)b.set_up();
    if (who == "edit-cost") return b.edit_costs(false).cost;
    if (who == "edit-amounts") return b.edit_amounts(false).cost;
    if (who == "solve-cost") return b.solve_edited(&Edit::exchange_cost).cost;
    if (who == "solve-amounts") return b.solve_edited(&Edit::exchange_amounts).cost;
    return b.solve();
}

int main(int argc, char** argv) {
    const std::string what = argc > 1 ? argv[1] : "";
    if (what == "kinds") {
        for (auto& kind : kinds) std::puts(kind.name);
    } else if (what == "count" && argc == 5 && std::strtoul(argv[2], nullptr, 10) < kind_count) {
        Bench b(kinds[std::strtoul(argv[2], nullptr, 10)], std::strtoul(argv[4], nullptr, 10), 1);
        std::printf("%lld\n", (long long)counted(b, argv[3]));
    } else if (argc == 1) {
        for (auto& kind : kinds) compare(kind);
        for (auto& kind : kinds) compare_edits(kind);
    } else {
        std::fputs("bench, bench kinds, or bench count KIND WHO SHEETS\n", stderr);
        return 2;
    }
    return 0;
}
