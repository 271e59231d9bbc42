// Holds a program to the reference: to the samples of paper 01, to sheets with a surplus, to costs below 0 and to parties at 0, and then to COUNT texts that
// are made from a seed, of each kind in turn. A kind of text is one test. A case that differs is told in full; with its number as FIRST and a count of 1 it
// runs alone.
#include "program.h"
#include "random_texts.h"
#include "report.h"

#include <algorithm>
#include <cstdio>
#include <exception>
#include <stdexcept>

// What the reference says, or which claim of the paper it found broken.
static std::string reference_answer(const std::string &text) {
    try {
        return answer(text);
    } catch (const Broken &broken) {
        return std::string("broken: ") + broken.what();
    }
}

// Whether the program prints what it should. If not, tells the difference.
static bool agrees(const std::string &program, const std::string &name, const std::vector<std::string> &pieces, const std::string &expected) {
    Outcome outcome = run_program(program, pieces);
    if (outcome.output == expected && outcome.errors.empty() && outcome.status == 0) return true;
    std::string text;
    for (const std::string &piece : pieces) text += piece;
    std::printf("%s differs, in %zu pieces\n  input     %s\n", name.c_str(), pieces.size(), escaped(text).c_str());
    std::printf("  reference %s\n  program   %s\n", escaped(expected).c_str(), escaped(outcome.output).c_str());
    std::printf("  standard error %s, status %d\n", escaped(outcome.errors).c_str(), outcome.status);
    if (outcome.too_late) throw std::runtime_error("the program hangs, and the run ends here");
    return false;
}

// ---- the samples of paper 01, and for paper 02 sheets with a surplus (One), with costs below 0 (Two) and with parties at 0 (Four)

struct Sample {
    const char *name;
    std::string text, printed;
};

static const Sheet sheet1 = {{3, 4}, {5, 2}, {{4, 1}, {2, 6}}};
static const Sheet sheet3 = {{5, 5}, {5, 5}, {{1, 1}, {1, 1}}};
static const Sheet sheet4 = {{1, 3}, {2, 1, 1}, {{9, 0, 0}, {0, 0, 0}}};
static const Sheet dear = {{3, 3}, {4}, {{5}, {1}}};
static const Sheet split = {{3, 3}, {2, 2}, {{1, 9}, {9, 1}}};
static const Sheet even = {{3, 3}, {4}, {{1}, {1}}};
static const Sheet extra_first = {{1, 2}, {1, 1}, {{2, 2}, {0, 1}}};
static const Sheet extra_later = {{1, 3}, {2, 1}, {{3, 0}, {2, 0}}};
static const Sheet earns = {{3, 3}, {4}, {{1}, {-5}}};
static const Sheet both_signs = {{2, 3}, {1, 2, 2}, {{-1, 0, -1}, {-1, 0, 2}}};
static const Sheet closed = {{0, 20, 14}, {12, 0, 15}, {{60, 45, 90}, {95, 70, 110}, {130, 80, 75}}};
static const Sheet first_empty = {{0, 3, 4}, {5, 2}, {{7, -3}, {4, 1}, {2, 6}}};
static const Sheet last_closed = {{3, 4}, {5, 2, 0}, {{4, 1, 3}, {2, 6, 9}}};
static const Sheet last_closed_with_surplus = {{3, 3}, {4, 0}, {{5, 7}, {1, -2}}};
static const Sheet both_struck = {{1, 0}, {1, 0}, {{0, 5}, {10, -3}}};

// Of nine lanes one alone joins parties left.
static Sheet one_lane_left(Whole supply, Whole demand) { return {{0, supply, 0}, {0, demand, 0}, {{1, 2, 3}, {4, 5, 6}, {7, 8, 9}}}; }

static std::string single(Whole supply, Whole demand, Whole cost) { return sheet_text({{supply}, {demand}, {{cost}}}); }

// One roastery, and cafés that want a bag each, at 1 cent; but so many, from the first on, are closed.
static std::string wide(Whole supply, size_t cafes, size_t closed_ones = 0) {
    List demand(cafes, 1);
    std::fill_n(demand.begin(), closed_ones, 0);
    return sheet_text({{supply}, demand, {List(cafes, 1)}});
}

static std::string wide_plan(size_t cafes, size_t closed_ones = 0) {
    std::string count = std::to_string(cafes - closed_ones), prices, lanes;
    for (size_t cafe = 1; cafe <= cafes; cafe++) {
        prices += "1\n";
        if (cafe > closed_ones) lanes += "1 " + std::to_string(cafe) + " 1\n";
    }
    return "total 1\n" + count + "\nrounds 1\n0\nroasteries 1\n0\ncafes " + std::to_string(cafes) + "\n" + prices + "lanes " + count + "\n" + lanes;
}

// The fullest sheet, all lanes at one cost, and its plan.
static std::string full_text(Whole cost) { return sheet_text({List(full, most), List(full, most), Grid(full, List(full, cost))}); }

static std::string full_plan(Whole cost, const std::string &total) {
    std::string roasteries, cafes, lanes;
    for (size_t k = 1; k <= full; k++) {
        roasteries += "0\n";
        cafes += std::to_string(cost) + "\n";
        lanes += std::to_string(k) + " " + std::to_string(k) + " 1000000\n";
    }
    return "total 1\n" + total + "\nrounds 1\n0\nroasteries 32\n" + roasteries + "cafes 32\n" + cafes + "lanes 32\n" + lanes;
}

// Two bags, and a cost that is written so. It begins after 29 bytes.
static std::string with_cost(const std::string &cost) { return "supply 1\n2\ndemand 1\n2\ncost 1\n" + cost; }

static const std::vector<Sample> samples = {
    {"P1", "supply 2\n3\n4\ndemand 2\n5\n2\ncost 2\n4 1\n2 6\n",
     "total 1\n14\nrounds 1\n1\nroasteries 2\n0\n-2\ncafes 2\n4\n1\nlanes 3\n1 1 1\n1 2 2\n2 1 4\n"},
    {"P3", sheet_text(sheet3), "total 1\n10\nrounds 1\n0\nroasteries 2\n0\n0\ncafes 2\n1\n1\nlanes 2\n1 1 5\n2 2 5\n"},
    {"P4", sheet_text(sheet4), "total 1\n0\nrounds 1\n2\nroasteries 2\n0\n0\ncafes 3\n0\n0\n0\nlanes 3\n1 2 1\n2 1 2\n2 3 1\n"},
    {"P6", single(1, 1, 0), "total 1\n0\nrounds 1\n0\nroasteries 1\n0\ncafes 1\n0\nlanes 1\n1 1 1\n"},
    {"P7", single(1'000'000, 1'000'000, 1'000'000),
     "total 1\n1000000000000\nrounds 1\n0\nroasteries 1\n0\ncafes 1\n1000000\nlanes 1\n1 1 1000000\n"},
    {"P7, dearer", single(1'000'000, 1'000'000, 1'000'001), "refused 4\n"},
    {"P8, supply 3", single(3, 2, 0), "total 1\n0\nrounds 1\n0\nroasteries 1\n0\ncafes 1\n0\nlanes 1\n1 1 2\n"},
    {"P8, supply 0", single(0, 2, 0), "refused 5\n"},
    {"the empty text", "", "refused 9 0\n"},
    {"supply 33", "supply 33", "refused 9 8\n"},
    {"supply 01", "supply 01", "refused 9 7\n"},
    {"more demand than supply", single(2, 3, 0), "refused 5\n"},
    {"the surplus at the dear roastery", sheet_text(dear), "total 1\n8\nrounds 1\n1\nroasteries 2\n0\n-4\ncafes 1\n5\nlanes 2\n1 1 1\n2 1 3\n"},
    {"the surplus at both", sheet_text(split), "total 1\n4\nrounds 1\n1\nroasteries 2\n0\n0\ncafes 2\n1\n1\nlanes 2\n1 1 2\n2 2 2\n"},
    {"equal costs", sheet_text(even), "total 1\n4\nrounds 1\n0\nroasteries 2\n0\n0\ncafes 1\n1\nlanes 2\n1 1 3\n2 1 1\n"},
    {"a tie, the extra café first", sheet_text(extra_first), "total 1\n1\nrounds 1\n2\nroasteries 2\n0\n0\ncafes 2\n0\n1\nlanes 2\n2 1 1\n2 2 1\n"},
    {"a tie, the extra café later", sheet_text(extra_later), "total 1\n4\nrounds 1\n2\nroasteries 2\n0\n0\ncafes 2\n2\n0\nlanes 2\n1 2 1\n2 1 2\n"},
    {"31 cafés and a surplus", wide(40, 31), wide_plan(31)},
    {"32 cafés and none", wide(32, 32), wide_plan(32)},
    {"32 cafés and a surplus", wide(40, 32), "refused 10\n"},
    {"32 cafés and too few bags", wide(31, 32), "refused 5\n"},
    {"the lane that earns goes full", sheet_text(earns), "total 1\n-14\nrounds 1\n1\nroasteries 2\n0\n-6\ncafes 1\n1\nlanes 2\n1 1 1\n2 1 3\n"},
    {"costs of both signs", sheet_text(both_signs),
     "total 1\n-3\nrounds 1\n2\nroasteries 2\n0\n3\ncafes 3\n-4\n-3\n-1\nlanes 3\n1 3 2\n2 1 1\n2 2 2\n"},
    {"the least cost", single(1'000'000, 1'000'000, -1'000'000),
     "total 1\n-1000000000000\nrounds 1\n0\nroasteries 1\n0\ncafes 1\n-1000000\nlanes 1\n1 1 1000000\n"},
    {"the greatest total", full_text(most), full_plan(most, "32000000000000")},
    {"the least total, of the longest text", full_text(-most), full_plan(-most, "-32000000000000")},
    {"the longest text and a byte", full_text(-most) + "\n", "refused 9 9756\n"},
    {"-3", with_cost("-3\n"), "total 1\n-6\nrounds 1\n0\nroasteries 1\n0\ncafes 1\n-3\nlanes 1\n1 1 2\n"},
    {"-1000001", with_cost("-1000001\n"), "refused 4\n"},
    {"1000001", with_cost("1000001\n"), "refused 4\n"},
    {"-9999999", with_cost("-9999999\n"), "refused 4\n"},
    {"-10000000", with_cost("-10000000\n"), "refused 9 37\n"},
    {"-0", with_cost("-0\n"), "refused 9 30\n"},
    {"-01", with_cost("-01\n"), "refused 9 30\n"},
    {"- at the end", with_cost("-"), "refused 9 30\n"},
    {"- alone", with_cost("-\n"), "refused 9 30\n"},
    {"--1", with_cost("--1\n"), "refused 9 30\n"},
    {"1-", with_cost("1-\n"), "refused 9 30\n"},
    {"+1", with_cost("+1\n"), "refused 9 29\n"},
    {"a count with a minus", "supply -1\n", "refused 9 7\n"},
    {"a supply with a minus", "supply 1\n-2\n", "refused 9 9\n"},
    {"a demand with a minus", "supply 1\n2\ndemand 1\n-2\n", "refused 9 20\n"},
    {"an empty roastery and a closed café", sheet_text(closed),
     "total 1\n2300\nrounds 1\n1\nroasteries 3\n-35\n0\n-35\ncafes 3\n95\n70\n110\nlanes 3\n2 1 12\n2 3 1\n3 3 14\n"},
    {"the first roastery empty", sheet_text(first_empty),
     "total 1\n14\nrounds 1\n1\nroasteries 3\n-4\n0\n-2\ncafes 2\n4\n1\nlanes 3\n2 1 1\n2 2 2\n3 1 4\n"},
    {"the last café closed", sheet_text(last_closed),
     "total 1\n14\nrounds 1\n1\nroasteries 2\n0\n-2\ncafes 3\n4\n1\n3\nlanes 3\n1 1 1\n1 2 2\n2 1 4\n"},
    {"the last café closed, and a surplus", sheet_text(last_closed_with_surplus),
     "total 1\n8\nrounds 1\n1\nroasteries 2\n0\n-4\ncafes 2\n5\n2\nlanes 2\n1 1 1\n2 1 3\n"},
    {"the price of a struck roastery from that of a struck café", sheet_text(both_struck),
     "total 1\n0\nrounds 1\n0\nroasteries 2\n0\n-8\ncafes 2\n0\n5\nlanes 1\n1 1 1\n"},
    {"one lane left", sheet_text(one_lane_left(5, 5)), "total 1\n25\nrounds 1\n0\nroasteries 3\n-3\n0\n3\ncafes 3\n4\n5\n6\nlanes 1\n2 2 5\n"},
    {"one lane left, and a surplus", sheet_text(one_lane_left(5, 3)),
     "total 1\n15\nrounds 1\n0\nroasteries 3\n-3\n0\n0\ncafes 3\n4\n5\n6\nlanes 1\n2 2 3\n"},
    {"one lane left, and too few bags", sheet_text(one_lane_left(3, 5)), "refused 5\n"},
    {"no demand", single(2, 0, 0), "refused 11\n"},
    {"nothing at all", single(0, 0, 0), "refused 11\n"},
    {"nothing on any side", sheet_text(one_lane_left(0, 0)), "refused 11\n"},
    {"no demand, and a supply above the limit", single(1'000'001, 0, 0), "refused 3\n"},
    {"no demand, and a cost above the limit", single(2, 0, 1'000'001), "refused 4\n"},
    {"32 cafés, one of them closed", wide(31, 32, 1), wide_plan(32, 1)},
    {"32 cafés, one of them closed, and a surplus", wide(32, 32, 1), "refused 10\n"},
    {"32 closed cafés and a supply", wide(1, 32, 32), "refused 10\n"},
    {"32 closed cafés and no supply", wide(0, 32, 32), "refused 11\n"},
    {"31 closed cafés and a supply", wide(1, 31, 31), "refused 11\n"},
};

static bool samples_are_met(const std::string &program) {
    bool met = true;
    for (const Sample &sample : samples) {
        met &= agrees(program, sample.name, {sample.text}, sample.printed);
        if (reference_answer(sample.text) == sample.printed) continue;
        std::printf("the reference differs from the paper on %s: %s\n", sample.name, escaped(reference_answer(sample.text)).c_str());
        met = false;
    }
    return met;
}

// P1: the start, the round and the tableau after it.
static bool meets_first_round() {
    Tableau tableau = start(sheet1);
    Prices found = prices(sheet1, tableau);
    Lane lane = least_lane(sheet1, found);
    bool met = tableau == Tableau{{{0, 0}, {3, 1}}, {{1, 0}, {2, -1}}, {{1, 1}, {2, 2}}};
    met &= lane == Lane{0, 1} && found.reduced(sheet1, lane) == -7;
    met &= make_round(sheet1, tableau, lane) == Amount{2, 2};
    return met && tableau == Tableau{{{0, 0}, {1, -1}}, {{0, 1}, {2, 2}}, {{1, 0}, {4, 1}}};
}

// P2: allowance 0 is spent, allowance 1 is enough.
static bool meets_allowances() {
    Path path(sheet1, start(sheet1));
    return !path.after(0).finished && path.after(1).finished && path.end().rounds == 1;
}

// P3: the start has a cell of no bags. P9: with (0, 0) there it does not belong.
static bool meets_tied_start() {
    Cells cells = cells_of(start(sheet3)), emptied = cells;
    emptied[1].amount = {0, 0};
    return tableau_of(cells) == Tableau{{{0, 0}, {5, 0}}, {{0, 1}, {0, 1}}, {{1, 1}, {5, 1}}} && belongs(sheet3, cells) && !belongs(sheet3, emptied);
}

// P4: the second round moves a mark and no bag.
static bool meets_small_step() {
    Tableau tableau = start(sheet4);
    make_round(sheet4, tableau, least_lane(sheet4, prices(sheet4, tableau)));
    return make_round(sheet4, tableau, least_lane(sheet4, prices(sheet4, tableau))) == Amount{0, 1};
}

// P5: another finished tableau settles to the plan of P4.
static bool meets_other_end() {
    Tableau tableau = {{{0, 2}, {1, 1}}, {{1, 0}, {2, 0}}, {{1, 1}, {1, 0}}, {{1, 2}, {0, 1}}};
    return belongs(sheet4, cells_of(tableau)) && settled_plan(sheet4, prices(sheet4, tableau), tableau) == Grid{{0, 1, 0}, {2, 0, 1}};
}

// The tableau has a column more than the sheet has cafés, with the marks; and without it, it does not belong.
static bool meets_extra_cafe() {
    Sheet extended = ::extended(dear);
    Tableau tableau = start(extended);
    Lane lane = least_lane(extended, prices(extended, tableau));
    bool met = tableau == Tableau{{{0, 0}, {3, 1}}, {{1, 0}, {1, -1}}, {{1, 1}, {2, 2}}} && belongs(extended, cells_of(tableau));
    met &= !belongs(extended, cells_of(start({{1, 3}, {4}, {{5}, {1}}})));
    met &= lane == Lane{0, 1} && make_round(extended, tableau, lane) == Amount{2, 2};
    return met && tableau == Tableau{{{0, 0}, {1, -1}}, {{0, 1}, {2, 2}}, {{1, 0}, {3, 1}}};
}

// The plans of the start and of the round after it cost 3 and 0, that of the next -3.
static bool meets_falling_costs() {
    Tableau tableau = start(both_signs);
    std::vector<Tableau> seen = {tableau};
    for (int round = 0; round < 2; round++) {
        make_round(both_signs, tableau, least_lane(both_signs, prices(both_signs, tableau)));
        seen.push_back(tableau);
    }
    return seen[0] == Tableau{{{0, 0}, {1, 0}}, {{0, 1}, {1, 1}}, {{1, 1}, {1, -1}}, {{1, 2}, {2, 2}}} &&
           seen[1] == Tableau{{{0, 0}, {1, 0}}, {{0, 2}, {1, 1}}, {{1, 1}, {2, 0}}, {{1, 2}, {1, 1}}} &&
           seen[2] == Tableau{{{0, 2}, {2, 1}}, {{1, 0}, {1, 0}}, {{1, 1}, {2, 0}}, {{1, 2}, {0, 1}}} &&
           cost_of(both_signs, {{1, 1, 0}, {0, 1, 2}}) == 3 && cost_of(both_signs, {{1, 0, 1}, {0, 2, 1}}) == 0;
}

// The tableau covers the parties left, under their own numbers: two roasteries, two cafés and the extra one, which has a mark for each of the two.
static bool meets_struck_parties() {
    Sheet extended = ::extended(closed);
    Tableau tableau = start(extended);
    Lane lane = least_lane(extended, prices(extended, tableau));
    bool met = tableau == Tableau{{{1, 0}, {12, 0}}, {{1, 2}, {8, 1}}, {{2, 2}, {7, -1}}, {{2, 3}, {7, 2}}} && belongs(extended, cells_of(tableau));
    met &= lane == Lane{1, 3} && make_round(extended, tableau, lane) == Amount{7, 2};
    met &= tableau == Tableau{{{1, 0}, {12, 0}}, {{1, 2}, {1, -1}}, {{1, 3}, {7, 2}}, {{2, 2}, {14, 1}}} && belongs(extended, cells_of(tableau));
    // Without the extra café the last one left has the marks.
    met &= start(last_closed) == Tableau{{{0, 0}, {3, 1}}, {{1, 0}, {2, -1}}, {{1, 1}, {2, 2}}};
    // A cell at a struck party, or under the number among those left, does not belong.
    met &= !belongs(last_closed, {{0, 0, {3, 1}}, {1, 0, {2, -1}}, {1, 2, {2, 2}}}) && !belongs(first_empty, cells_of(start(sheet1)));
    return met && start(first_empty) == Tableau{{{1, 0}, {3, 1}}, {{2, 0}, {2, -1}}, {{2, 1}, {2, 2}}};
}

// The first lane of the least reduced cost enters, of the extra café or not.
static bool meets_entering_lane(const Sheet &sheet, Lane lane, Lane other) {
    Sheet extended = ::extended(sheet);
    Prices found = prices(extended, start(extended));
    return least_lane(extended, found) == lane && found.reduced(extended, lane) == found.reduced(extended, other);
}

static void test_samples(const std::string &program) {
    test("the papers' samples, by the program and by the reference", samples_are_met(program));
    bool met = meets_first_round() && meets_allowances() && meets_tied_start() && meets_small_step() && meets_other_end() && meets_extra_cafe() &&
               meets_falling_costs() && meets_struck_parties();
    met &= meets_entering_lane(extra_first, {0, 2}, {1, 0}) && meets_entering_lane(extra_later, {0, 1}, {0, 2});
    test("the papers' tableaux, by the reference", met);
}

// ---- random texts

// Notes what sort of text it is.
static void note(Tally &tally, const std::string &text, const std::string &expected) {
    Reading reading = read_sheet(text);
    tally.count("texts");
    if (reading.refusal != no_refusal) {
        tally.refused(reading.refusal);
        return;
    }
    tally.count("plans");
    tally.count("with a surplus", surplus(reading.sheet) > 0);
    tally.count("with parties at 0", has_struck(reading.sheet));
    tally.count("plans searched", has_few_plans(reading.sheet));
    long long cost = 0, rounds = 0;
    if (std::sscanf(expected.c_str(), "total 1 %lld rounds 1 %lld", &cost, &rounds) != 2) return;
    tally.count("with a total below 0", cost < 0);
    tally.note_most("most rounds", (uint64_t)rounds);
}

static void run_case(const std::string &program, const Case &at_hand, Tally &tally) {
    Dice dice(at_hand.seed, at_hand.number);
    std::string text = text_kinds[at_hand.kind].make(dice), expected = reference_answer(text);
    std::vector<std::string> pieces = pieces_of(dice, text);
    note(tally, text, expected);
    tally.count("in pieces", pieces.size() > 1);
    tally.differ += !agrees(program, at_hand.name, pieces, expected);
}

int main(int count, char **arguments) {
    if (count != 4 && count != 5) {
        std::fprintf(stderr, "usage: %s PANEL SEED COUNT [FIRST]\n", arguments[0]);
        return 2;
    }
    try {
        test_samples(arguments[1]);
        test_kinds(text_kinds, cases_of(count - 2, arguments + 2), [&](const Case &at_hand, Tally &tally) { run_case(arguments[1], at_hand, tally); });
    } catch (const std::exception &error) {
        test(error.what(), false);
    }
    return tell_count();
}
