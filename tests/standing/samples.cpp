#include "samples.h"
#include "../hostile/report.h"
#include "expected.h"

#include <cstdio>

// ---- as the paper counts: from 1

static Tableau::value_type cell(size_t i, size_t j, Whole q, Whole e) { return {{i - 1, j - 1}, {q, e}}; }
static Edit set_cost(size_t i, size_t j, Whole cost) { return cost_edit(i - 1, j - 1, cost); }
static Edit set_amounts(size_t i, size_t j, uint64_t supply, uint64_t demand) { return amount_edit(i - 1, j - 1, supply, demand); }

static Lists one_lane(uint64_t supply, uint64_t demand, Whole cost) { return {{supply}, {demand}, {cost}}; }

// P1's sheet, with its start and its finished tableau; and one with an extra café and a closed one.
static const Lists sheet1 = {{3, 4}, {5, 2}, {4, 1, 2, 6}}, dear_closed = {{3, 3}, {4, 0}, {5, 2, 1, 2}};
static const Tableau start1 = {cell(1, 1, 3, 1), cell(2, 1, 2, -1), cell(2, 2, 2, 2)};
static const Tableau next1 = {cell(1, 1, 1, -1), cell(1, 2, 2, 2), cell(2, 1, 4, 1)};
static const Tableau last_closed = {cell(1, 1, 1, -1), cell(1, 3, 2, 2), cell(2, 1, 3, 1)};

static panel_standing stands1(uint64_t counter) { return standing_struct(sheet1, next1, counter); }
static panel_standing stands_closed() { return standing_struct(dear_closed, last_closed, 0); }

// ---- what a sample says

struct Given {
    Whole cost;
    uint64_t rounds;
    List u, v;
    Numbers plan;
};

static const Rooms enough = {2, 2, 4}, too_short = {2, 2, 3};
static const Lending lending = {0, false, false, 77};

// The library and the reference give what the paper says.
static void test_outcome(const std::string &name, const Outcome &expected, const Outcome &library, const Outcome &reference) {
    std::string difference = difference_of(expected, library), other = difference_of(expected, reference);
    if (!difference.empty()) std::printf("the library differs from the paper:\n%s", difference.c_str());
    if (!other.empty()) std::printf("the reference differs from the paper:\n%s", other.c_str());
    test(name, difference.empty() && other.empty());
}

static void test_set_up(const std::string &name, const Lists &lists, int refusal, const panel_standing &standing) {
    Outcome expected;
    expected.refusal = refusal;
    expected.standing = standing;
    test_outcome(name, expected, outcome_of_set_up(lists, lending), expected_set_up(lists));
}

// The answer, without how the sheet then stands.
static Outcome answer_of(Outcome outcome) {
    outcome.standing = {};
    return outcome;
}

static Outcome outcome_of(const Given &given) {
    Outcome outcome;
    outcome.cost = given.cost;
    outcome.rounds = given.rounds;
    outcome.filled = {bytes_of(given.u), bytes_of(given.v), bytes_of(given.plan)};
    return outcome;
}

static void test_gives(const std::string &name, const panel_standing &standing, const Edit &edit, const Given &given) {
    test_outcome(name, outcome_of(given), answer_of(outcome_of_edit(standing, edit, enough, lending)),
                 answer_of(expected_edit(standing, edit, enough, lending).outcome));
}

static void test_stands(const std::string &name, const panel_standing &standing, const Edit &edit, const panel_standing &after) {
    Owed owed = expected_edit(standing, edit, enough, lending);
    Outcome seen = outcome_of_edit(standing, edit, enough, lending), expected = owed.outcome;
    expected.standing = after;
    test_outcome(name, expected, seen, owed.outcome);
}

// Nothing is altered.
static void test_refused(const std::string &name, int number, const panel_standing &standing, const Edit &edit, const Rooms &rooms) {
    Outcome expected;
    expected.refusal = number;
    expected.standing = standing;
    for (size_t room : rooms) expected.filled.push_back(lending.before(room));
    test_outcome(name, expected, outcome_of_edit(standing, edit, rooms, lending), expected_edit(standing, edit, rooms, lending).outcome);
}

static void test_solves(const std::string &name, const Lists &lists, const Given &given) {
    Solution solution = solve(sheet_of(lists));
    Given found = {solution.cost, solution.rounds, solution.prices.u, solution.prices.v, {}};
    for (const List &row : solution.plan) found.plan.insert(found.plan.end(), row.begin(), row.end());
    test_outcome(name, outcome_of(given), outcome_of_solve(lists, enough, lending), outcome_of(found));
}

// ---- the samples

static void test_set_ups() {
    test_set_up("P1's sheet is set up", sheet1, 0, stands1(0));
    test_set_up("a sheet with an extra café and a closed one is set up", dear_closed, 0, stands_closed());
    test_set_up("set up, more demand than supply: 5", one_lane(2, 3, 0), 5, {});
    test_set_up("set up, no demand: 11", one_lane(3, 0, 0), 11, {});
    panel_sheet sheet = outcome_of_set_up(sheet1, lending).standing.sheet;
    Lists kept = lists_of(sheet);
    test("the sheet of the struct is P1's", kept.supply == sheet1.supply && kept.demand == sheet1.demand && kept.cost == sheet1.cost);
    test("its 30 spare supplies are zeros", Numbers(sheet.supply + 2, sheet.supply + PANEL_MAX_SIDE) == Numbers(30, 0));
}

static void test_cost_edits() {
    Given dearer = {28, 1, {0, -2}, {4, 8}, {3, 0, 2, 2}}, from_nothing = dearer;
    Lists sheet_dearer = {{3, 4}, {5, 2}, {4, 9, 2, 6}};
    from_nothing.rounds = 0;
    test_gives("a cost edit goes on from the kept tableau: one round", stands1(0), set_cost(1, 2, 9), dearer);
    test_solves("from nothing it takes none, and all else is the same", sheet_dearer, from_nothing);
    test_stands("the sheet then stands with the tableau of that round", stands1(0), set_cost(1, 2, 9), standing_struct(sheet_dearer, start1, 1));
    test_gives("a cost edit that changes nothing", stands1(7), set_cost(1, 2, 1), {14, 0, {0, -2}, {4, 1}, {1, 2, 4, 0}});
    test_stands("it is counted", stands1(7), set_cost(1, 2, 1), stands1(8));
}

static void test_amount_edits() {
    Tableau with_surplus = {cell(1, 2, 2, 0), cell(1, 3, 1, 1), cell(2, 1, 5, 0), cell(2, 3, 0, 1)};
    test_gives("an amount edit begins afresh", stands1(0), set_amounts(1, 1, 4, 6), {18, 1, {0, -2}, {4, 1}, {2, 2, 4, 0}});
    test_gives("one that makes a surplus", stands1(0), set_amounts(2, 2, 5, 2), {12, 2, {0, 0}, {2, 1}, {0, 2, 5, 0}});
    test_stands("the sheet then stands with an extra café in the tableau", stands1(0), set_amounts(2, 2, 5, 2),
                standing_struct({{3, 5}, {5, 2}, {4, 1, 2, 6}}, with_surplus, 1));
    test_gives("one that closes a café", stands1(0), set_amounts(1, 2, 1, 0), {12, 0, {0, -2}, {4, 1}, {1, 0, 4, 0}});
}

static void test_edits_with_extra_cafe() {
    test_gives("with an extra café, a lane of parties left", stands_closed(), set_cost(1, 1, 0), {1, 1, {0, 1}, {0, 1}, {3, 0, 1, 0}});
    test_gives("a lane of the closed café, which moves its price alone", stands_closed(), set_cost(1, 2, -9), {8, 0, {0, -4}, {5, -9}, {1, 0, 3, 0}});
    test_gives("the café opened", stands_closed(), set_amounts(2, 2, 3, 2), {12, 1, {0, -4}, {5, 2}, {1, 2, 3, 0}});
}

static void test_refusals() {
    panel_standing single = standing_struct(one_lane(1, 1, 0), {cell(1, 1, 1, 1)}, 0);
    test_refused("a supply above the limit: 3", 3, stands1(0), set_amounts(1, 1, 1'000'001, 9), too_short);
    test_refused("a cost above the limit: 4", 4, stands1(0), set_cost(1, 1, 1'000'001), too_short);
    test_refused("more demand than supply: 5", 5, stands1(0), set_amounts(1, 1, 3, 6), too_short);
    test_refused("no demand: 11", 11, single, set_amounts(1, 1, 1, 0), {1, 1, 1});
    test_refused("the plan's list too short: 8", 8, stands1(0), set_cost(1, 1, 1), too_short);
    test("the sheet then stands as before", stored(outcome_of_edit(stands1(0), set_cost(1, 1, 1), too_short, lending).standing) == stored(stands1(0)));
}

// Not among those of Samples.antt: 10, for which there have to be 32 cafés.
static void test_crowded() {
    Tableau tableau;
    for (size_t j = 1; j <= 32; j++) tableau.insert(cell(1, j, 1, j == 32 ? 1 : 0));
    panel_standing wide = standing_struct({{32}, Numbers(32, 1), List(32, 1)}, tableau, 0);
    test_refused("a surplus and 32 cafés, before 8: 10", 10, wide, set_amounts(1, 32, 32, 0), {0, 0, 0});
}

static void test_bad_edits() {
    test_refused("a roastery not on the sheet, before 4: 12", 12, stands1(0), set_cost(3, 1, 1'000'001), enough);
    test_refused("a café not on the sheet, before 5: 12", 12, stands1(0), set_amounts(1, 3, 1, 9), enough);
    test_refused("the extra café: 12", 12, stands_closed(), set_cost(1, 3, 1), enough);
    test_refused("the counter at its largest value, before 4: 12", 12, stands1(largest_counter), set_cost(1, 1, 1'000'001), enough);
    test_stands("the counter gets to its largest value", stands1(largest_counter - 1), set_cost(1, 2, 1), stands1(largest_counter));
}

static void test_first_check() {
    panel_standing unfinished = standing_struct(sheet1, start1, largest_counter), long_count = stands1(0), many_sources = stands1(0);
    long_count.tableau.count = 64;
    many_sources.sheet = {33, 2, {}, {}, {}};
    for (size_t k = 0; k < PANEL_MAX_SIDE; k++) many_sources.sheet.supply[k] = many_sources.sheet.demand[k] = 1;
    test_refused("an unfinished tableau, before 12: 7", 7, unfinished, set_cost(3, 1, 1), enough);
    test_refused("a count beyond the array, before 12: 6", 6, long_count, set_cost(3, 1, 1), enough);
    test_refused("more roasteries than the array has room for: 1", 1, many_sources, set_cost(1, 1, 1), enough);
}

void test_samples() {
    test_set_ups();
    test_cost_edits();
    test_amount_edits();
    test_edits_with_extra_cafe();
    test_refusals();
    test_crowded();
    test_bad_edits();
    test_first_check();
}
