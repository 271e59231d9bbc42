// What the program has to print for any input, and what the calls have to give, found in the plainest way from the words of paper 01 and of paper 02, One, Two
// and Four. Shares nothing with the panel's code: all parties keep their own numbers throughout, and struck ones are passed over.
#ifndef REFERENCE_H
#define REFERENCE_H

#include <cstddef>
#include <cstdint>
#include <deque>
#include <map>
#include <stdexcept>
#include <string>
#include <utility>
#include <vector>

using Whole = int64_t;
using List = std::vector<Whole>;
using Grid = std::vector<List>; // a row for each roastery

struct Sheet {
    List supply, demand;
    Grid cost;
    size_t m() const { return supply.size(); }
    size_t n() const { return demand.size(); }
};

Whole total(const List &list);
// What supply is above demand.
Whole surplus(const Sheet &sheet);
// The sheet that tableaux are of: where there is a surplus, an extra café, the last one, takes it at cost 0. All that follows about tableaux and prices is said
// of sheets that are extended.
Sheet extended(const Sheet &sheet);
// Whether some party has an amount of 0, and so is struck.
bool has_struck(const Sheet &sheet);

// A sheet as it is lent: lists of any length, with any numbers.
using Numbers = std::vector<uint64_t>;
struct Lists {
    Numbers supply, demand;
    List cost;
};

Lists lists_of(const Sheet &sheet);
// Of lists that the sheet check does not refuse.
Sheet sheet_of(const Lists &lists);

// The reference throws this where something that the paper says of sheets and tableaux does not hold.
struct Broken : std::runtime_error {
    using std::runtime_error::runtime_error;
};

// ---- refusals

const int no_refusal = 0;

// The first of the sheet check.
int refusal_of(const Lists &lists);

// ---- texts

struct Reading {
    int refusal;
    size_t place; // of refusal 9
    Sheet sheet;
};

Reading read_sheet(const std::string &text);
std::string sheet_text(const Sheet &sheet);

// ---- rounds

// Roastery and café, from 0. Lanes compare in sheet order.
using Lane = std::pair<size_t, size_t>;
// Bags and marks. Amounts compare by bags first.
using Amount = std::pair<Whole, Whole>;
const Amount nothing = {0, 0};
// The basic cells, in sheet order.
using Tableau = std::map<Lane, Amount>;

struct Prices {
    List u, v;
    Whole reduced(const Sheet &sheet, Lane lane) const { return sheet.cost[lane.first][lane.second] - u[lane.first] - v[lane.second]; }
};

Amount sum(Amount a, Amount b), difference(Amount a, Amount b);

// The lanes between two parties left, in sheet order.
std::vector<Lane> lanes_left(const Sheet &sheet);

// The roasteries and cafés in parts. At first each is a part of its own.
class Parts {
    const size_t m;
    std::vector<size_t> part; // of each roastery, and then of each café

public:
    explicit Parts(const Sheet &sheet);
    // Joins the parts of the lane's two ends. False if they were one.
    bool join(Lane lane);
};

// A lent list of cells, which may be any.
struct Cell {
    size_t row, col;
    Amount amount;
};
using Cells = std::vector<Cell>;

Cells cells_of(const Tableau &tableau);
// Whether the cells are a tableau of the extended sheet.
bool belongs(const Sheet &sheet, const Cells &cells);
// Of cells that belong.
Tableau tableau_of(const Cells &cells);

Tableau start(const Sheet &sheet);
// From the north-west corner on, passing over parties that have nothing.
Tableau north_west(std::vector<Amount> left, std::vector<Amount> wanted);
// What a supply or demand becomes in the tableau; nothing if its party is struck.
std::vector<Amount> paired_supplies(const Sheet &sheet), paired_demands(const Sheet &sheet);
// Those of struck parties too.
Prices prices(const Sheet &sheet, const Tableau &tableau);
// The lane between parties left of least reduced cost, the first in sheet order.
Lane least_lane(const Sheet &sheet, const Prices &prices);
// Makes a round, and gives its step.
Amount make_round(const Sheet &sheet, Tableau &tableau, Lane entering);

// The tableaux from one up to the finished one. Each is found when it is first asked for.
class Path {
public:
    struct Stop {
        uint64_t rounds; // made up to here
        Tableau tableau;
        Prices prices;
        Lane least;
        bool finished;
    };

    Path(const Sheet &sheet, const Tableau &first);
    // After so many rounds, or where it is finished if that is sooner.
    const Stop &after(uint64_t rounds);
    const Stop &end() { return after(UINT64_MAX); }

private:
    const Sheet &sheet;
    std::deque<Stop> stops;
    void add(const Tableau &tableau);
};

// ---- plans

// From a finished tableau of the extended sheet with these prices.
Grid settled_plan(const Sheet &sheet, const Prices &prices, const Tableau &tableau);
Whole cost_of(const Sheet &sheet, const Grid &plan);
// The plan that a search through all plans finds.
Grid search(const Sheet &sheet);
// Whether such a search is quick.
bool has_few_plans(const Sheet &sheet);

// Of the sheet alone, without the extra café.
struct Solution {
    Whole cost;
    uint64_t rounds;
    Prices prices;
    Grid plan;
};

// The solution, once its prices have proved its plan, and a search has found it again if that is quick.
Solution solve(const Sheet &sheet);
// The same from the end of the path from the start, on the extended sheet.
Solution solution_at(const Sheet &sheet, const Path::Stop &end);
std::string plan_text(const Solution &solution);

// What the program prints for a text.
std::string answer(const std::string &text);

#endif
