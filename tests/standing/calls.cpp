#include "calls.h"

#include <algorithm>
#include <cstring>
#include <new>
#include <sstream>

// All of it is numbers of 64 bits, without gaps, so that it may be compared number by number.
static const size_t cell_words = 4, standing_words = 2 + 2 * PANEL_MAX_SIDE + PANEL_MAX_LANES + cell_words * PANEL_MAX_CELLS + 2;
static_assert(sizeof(panel_standing) == 8 * standing_words, "a standing sheet has no gaps");

Lending any_lending(Dice &dice) { return {(unsigned)dice.below(256), dice.once_in(4), dice.once_in(2), (unsigned char)dice.below(256)}; }

// ---- what is lent to a call

namespace {

class Loans {
    struct Loan {
        std::string name;
        Bytes before;
        Lent lent;
        bool only_read;
    };
    const Lending &lending;
    std::vector<Loan> loans;

    const Lent &lend(const std::string &name, const Bytes &content, bool only_read);

public:
    explicit Loans(const Lending &lending) : lending(lending) {}
    template <class Item> Item *lend_to_read(const std::string &name, const std::vector<Item> &items) {
        const Lent &lent = lend(name, bytes_of(items), true);
        return lent.items<Item>();
    }
    // So many places of 8 bytes.
    template <class Item> Item *lend_to_fill(const std::string &name, size_t room) {
        const Lent &lent = lend(name, lending.before(room), false);
        return lent.items<Item>();
    }
    void seal(bool sealed);
    Bytes now(const std::string &name) const;
    // The lists that are only read, and the bytes around all lists, have to stay.
    std::vector<std::string> damage() const;
};

const Lent &Loans::lend(const std::string &name, const Bytes &content, bool only_read) {
    size_t slot = loans.size();
    loans.push_back({name, content, Lent(slot, content, lending.at_end >> slot & 1), only_read});
    return loans.back().lent;
}

void Loans::seal(bool sealed) {
    for (Loan &loan : loans)
        if (loan.only_read && lending.sealed) loan.lent.seal(sealed);
}

Bytes Loans::now(const std::string &name) const {
    auto is_it = [&](const Loan &loan) { return loan.name == name; };
    return std::find_if(loans.begin(), loans.end(), is_it)->lent.now();
}

std::vector<std::string> Loans::damage() const {
    std::vector<std::string> damage;
    for (const Loan &loan : loans) {
        if (loan.only_read && !loan.lent.holds(loan.before)) damage.push_back(loan.name + " changed");
        if (!loan.lent.keeps_guards()) damage.push_back("bytes around " + loan.name + " changed");
    }
    return damage;
}

} // namespace

// ---- the calls

// Makes a call, whose result is lent its place too.
template <class Result, class Call> static Result result_of(Loans &loans, Outcome &outcome, Call call) {
    Result *place = loans.lend_to_fill<Result>("result", sizeof(Result) / 8), result;
    loans.seal(true);
    int number = signal_in([&] { new (place) Result(call()); });
    loans.seal(false);
    outcome.damage = loans.damage();
    if (number != 0) outcome.damage.push_back("the call ended by signal " + std::to_string(number));
    std::memcpy(&result, place, sizeof result);
    outcome.refusal = result.refusal;
    return result;
}

// The lists of a sheet, lent.
struct LentSheet {
    const uint64_t *supply, *demand;
    const int64_t *cost;
};

static LentSheet lend(Loans &loans, const Lists &lists, const Lending &lending) {
    const uint64_t *supply = loans.lend_to_read("supply", lists.supply);
    bool one = lending.shared && lists.supply == lists.demand;
    const uint64_t *demand = one ? supply : loans.lend_to_read("demand", lists.demand);
    return {supply, demand, loans.lend_to_read("cost", lists.cost)};
}

// The lists for prices and plan, lent.
struct LentRooms {
    int64_t *u, *v;
    uint64_t *plan;
};

static LentRooms lend(Loans &loans, const Rooms &rooms) {
    int64_t *u = loans.lend_to_fill<int64_t>("u", rooms[0]), *v = loans.lend_to_fill<int64_t>("v", rooms[1]);
    return {u, v, loans.lend_to_fill<uint64_t>("plan", rooms[2])};
}

static std::vector<Bytes> filled(const Loans &loans) { return {loans.now("u"), loans.now("v"), loans.now("plan")}; }

Outcome outcome_of_set_up(const Lists &lists, const Lending &lending) {
    Outcome outcome;
    Loans loans(lending);
    LentSheet lent = lend(loans, lists, lending);
    auto call = [&] { return panel_set_up(lent.supply, lists.supply.size(), lent.demand, lists.demand.size(), lent.cost, lists.cost.size()); };
    outcome.standing = result_of<panel_set_up_result>(loans, outcome, call).standing;
    return outcome;
}

Outcome outcome_of_edit(const panel_standing &standing, const Edit &edit, const Rooms &rooms, const Lending &lending) {
    Outcome outcome;
    Loans loans(lending);
    LentRooms lent = lend(loans, rooms);
    auto call = [&] {
        if (edit.of_cost) return panel_edit_cost(standing, edit.row, edit.col, edit.cost, lent.u, rooms[0], lent.v, rooms[1], lent.plan, rooms[2]);
        return panel_edit_amounts(standing, edit.row, edit.col, edit.supply, edit.demand, lent.u, rooms[0], lent.v, rooms[1], lent.plan, rooms[2]);
    };
    auto result = result_of<panel_edit_result>(loans, outcome, call);
    outcome.cost = result.cost;
    outcome.rounds = result.rounds;
    outcome.standing = result.after;
    outcome.filled = filled(loans);
    return outcome;
}

Outcome outcome_of_solve(const Lists &lists, const Rooms &rooms, const Lending &lending) {
    Outcome outcome;
    Loans loans(lending);
    LentSheet sheet = lend(loans, lists, lending);
    LentRooms lent = lend(loans, rooms);
    auto call = [&] {
        return panel_solve(sheet.supply, lists.supply.size(), sheet.demand, lists.demand.size(), sheet.cost, lists.cost.size(), lent.u, rooms[0], lent.v,
                           rooms[1], lent.plan, rooms[2]);
    };
    auto result = result_of<panel_solve_result>(loans, outcome, call);
    outcome.cost = result.cost;
    outcome.rounds = result.rounds;
    outcome.filled = filled(loans);
    return outcome;
}

// ---- storing

Bytes stored(const panel_standing &standing) { return Bytes((const char *)&standing, sizeof standing); }

panel_standing restored(const Bytes &bytes) {
    panel_standing standing;
    std::memcpy(&standing, bytes.data(), sizeof standing);
    return standing;
}

// ---- telling: numbers are shown as signed ones

template <class Numbers> static void show(std::ostream &text, const char *name, const Numbers &numbers, size_t count) {
    text << "  " << name << ":";
    for (size_t k = 0; k < std::min<size_t>(count, PANEL_MAX_LANES); k++) text << " " << (Whole)numbers[k];
    text << (count > PANEL_MAX_LANES ? " ..\n" : "\n");
}

std::string shown(const Lists &lists) {
    std::ostringstream text;
    text << "  panel_set_up, " << lists.supply.size() << " supplies, " << lists.demand.size() << " demands, " << lists.cost.size() << " costs\n";
    show(text, "supply", lists.supply, lists.supply.size());
    show(text, "demand", lists.demand, lists.demand.size());
    show(text, "cost", lists.cost, lists.cost.size());
    return text.str();
}

std::string shown(const panel_standing &standing) {
    const panel_sheet &sheet = standing.sheet;
    const panel_tableau &tableau = standing.tableau;
    size_t m = std::min<size_t>(sheet.m, PANEL_MAX_SIDE), n = std::min<size_t>(sheet.n, PANEL_MAX_SIDE);
    std::ostringstream text;
    text << "  standing: m " << sheet.m << ", n " << sheet.n << ", count " << tableau.count << ", counter " << standing.counter << "\n";
    show(text, "supply", sheet.supply, m);
    show(text, "demand", sheet.demand, n);
    show(text, "cost", sheet.cost, m * n);
    text << "  cells:";
    for (size_t k = 0; k < std::min<size_t>(tableau.count, PANEL_MAX_CELLS); k++) {
        const panel_cell &cell = tableau.cells[k];
        text << " (" << cell.row << "," << cell.col << ")=(" << cell.amount.q << "," << cell.amount.e << ")";
    }
    text << "\n";
    return text.str();
}

std::string shown(const Edit &edit, const Rooms &rooms, const Lending &lending) {
    std::ostringstream text;
    text << "  panel_edit_" << (edit.of_cost ? "cost" : "amounts") << ", row " << edit.row << ", col " << edit.col;
    if (edit.of_cost) text << ", cost " << edit.cost;
    else text << ", supply " << edit.supply << ", demand " << edit.demand;
    text << ", rooms " << rooms[0] << " " << rooms[1] << " " << rooms[2] << ", lists at the end of their pages " << lending.at_end << ", first byte "
         << (int)lending.first_byte << "\n";
    return text.str();
}

// What the number at this place of a standing sheet is.
static std::string name_of_word(size_t place) {
    struct Part {
        const char *name;
        size_t count;
    };
    static const Part parts[] = {{"m", 1}, {"n", 1}, {"supply", PANEL_MAX_SIDE}, {"demand", PANEL_MAX_SIDE}, {"cost", PANEL_MAX_LANES}};
    static const char *const of_cell[cell_words] = {"row", "col", "q", "e"};
    for (const Part &part : parts) {
        if (place < part.count) return part.name + (part.count > 1 ? " " + std::to_string(place) : "");
        place -= part.count;
    }
    if (place < cell_words * PANEL_MAX_CELLS) return std::string(of_cell[place % cell_words]) + " of cell " + std::to_string(place / cell_words);
    return place == cell_words * PANEL_MAX_CELLS ? "count" : "counter";
}

static void compare(std::ostream &text, const std::string &name, Whole expected, Whole seen) {
    if (expected != seen) text << "  " << name << ": expected " << expected << ", seen " << seen << "\n";
}

static Whole number_at(const Bytes &list, size_t place) {
    Whole number;
    std::memcpy(&number, list.data() + 8 * place, sizeof number);
    return number;
}

static void compare(std::ostream &text, const Bytes &expected, const Bytes &seen, const std::function<std::string(size_t)> &name_of) {
    if (expected.size() != seen.size()) text << "  " << name_of(0) << ": expected " << expected.size() << " bytes, seen " << seen.size() << "\n";
    if (expected == seen || expected.size() != seen.size()) return;
    for (size_t place = 0; place < expected.size() / 8; place++) compare(text, name_of(place), number_at(expected, place), number_at(seen, place));
}

std::string difference_of(const Outcome &expected, const Outcome &seen) {
    static const char *const lists[] = {"u", "v", "plan"};
    std::ostringstream text;
    for (const std::string &damage : seen.damage) text << "  " << damage << "\n";
    compare(text, "refusal", expected.refusal, seen.refusal);
    compare(text, "cost of the plan", expected.cost, seen.cost);
    compare(text, "rounds", (Whole)expected.rounds, (Whole)seen.rounds);
    compare(text, stored(expected.standing), stored(seen.standing), name_of_word);
    for (size_t k = 0; k < std::min(expected.filled.size(), seen.filled.size()); k++)
        compare(text, expected.filled[k], seen.filled[k], [&](size_t place) { return "place " + std::to_string(place) + " of " + lists[k]; });
    if (expected.filled.size() != seen.filled.size()) text << "  other lists are filled\n";
    return text.str();
}
