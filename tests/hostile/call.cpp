#include "call.h"
#include "report.h"

#include <algorithm>
#include <cstring>
#include <sstream>

const char *name_of(Entry entry) {
    static const char *const names[] = {"start", "round", "run", "settle", "solve", "read_sheet", "write_sheet", "write_plan"};
    return names[(size_t)entry];
}

bool takes_tableau(Entry entry) { return entry == Entry::round || entry == Entry::run || entry == Entry::settle; }

size_t width_of(Entry entry) { return entry == Entry::write_sheet || entry == Entry::write_plan ? 1 : 8; }

// ---- results

static void add(Fields &fields, const char *name, uint64_t value, size_t index = 0) { fields.push_back({name, index, value, false}); }
static void add_signed(Fields &fields, const char *name, int64_t value, size_t index = 0) { fields.push_back({name, index, (uint64_t)value, true}); }

// As the byte that it is, since it may be one that no bool has.
static void add(Fields &fields, const char *name, const bool &value) {
    unsigned char byte;
    std::memcpy(&byte, &value, 1);
    add(fields, name, uint64_t{byte});
}

static void add(Fields &fields, const panel_tableau &tableau) {
    for (size_t k = 0; k < PANEL_MAX_CELLS; k++) {
        add(fields, "row of cell", tableau.cells[k].row, k);
        add(fields, "col of cell", tableau.cells[k].col, k);
        add_signed(fields, "q of cell", tableau.cells[k].amount.q, k);
        add_signed(fields, "e of cell", tableau.cells[k].amount.e, k);
    }
    add(fields, "count", tableau.count);
}

static Fields with_refusal(uint8_t refusal) {
    Fields fields;
    fields.reserve(4 * PANEL_MAX_CELLS + 2 * PANEL_MAX_SIDE + 4);
    add(fields, "refusal", uint64_t{refusal});
    return fields;
}

Fields fields_of(uint8_t refusal) { return with_refusal(refusal); }

Fields fields_of(const panel_start_result &result) {
    Fields fields = with_refusal(result.refusal);
    add(fields, result.tableau);
    return fields;
}

Fields fields_of(const panel_round_result &result) {
    Fields fields = with_refusal(result.refusal);
    add(fields, "finished", result.finished);
    add(fields, result.tableau);
    for (size_t k = 0; k < PANEL_MAX_SIDE; k++) add_signed(fields, "u", result.u[k], k);
    for (size_t k = 0; k < PANEL_MAX_SIDE; k++) add_signed(fields, "v", result.v[k], k);
    return fields;
}

Fields fields_of(const panel_run_result &result) {
    Fields fields = with_refusal(result.refusal);
    add(fields, "finished", result.finished);
    add(fields, "rounds", result.rounds);
    add(fields, result.tableau);
    return fields;
}

Fields fields_of(const panel_solve_result &result) {
    Fields fields = with_refusal(result.refusal);
    add_signed(fields, "cost", result.cost);
    add(fields, "rounds", result.rounds);
    return fields;
}

Fields fields_of(const panel_read_result &result) {
    Fields fields = with_refusal(result.refusal);
    add(fields, "sources", result.sources);
    add(fields, "sinks", result.sinks);
    add(fields, "place", result.place);
    return fields;
}

Fields fields_of(const panel_write_result &result) {
    Fields fields = with_refusal(result.refusal);
    add(fields, "length", result.length);
    return fields;
}

// ---- the call

namespace {

// A list that is lent, with what it held before.
struct Loan {
    std::string name;
    Bytes before;
    Lent lent;
    Loan(const std::string &name, size_t slot, const Bytes &before, const Call &call)
        : name(name), before(before), lent(slot, before, call.at_end >> slot & 1) {}
};

using Loans = std::vector<Loan>;

} // namespace

static Bytes bytes_of_cells(const Cells &cells) {
    std::vector<panel_cell> lent;
    for (const Cell &cell : cells) lent.push_back({cell.row, cell.col, {cell.amount.first, cell.amount.second}});
    return bytes_of(lent);
}

static Loans lent_to_read(const Lists &sheet, const Call &call) {
    if (call.entry == Entry::read_sheet) return {Loan("text", 0, call.text, call)};
    Loan supply("supply", 0, bytes_of(sheet.supply), call), demand("demand", 1, bytes_of(sheet.demand), call), cost("cost", 2, bytes_of(sheet.cost), call);
    Loans loans = {supply, demand, cost};
    if (call.shared && sheet.supply == sheet.demand) loans[1] = supply;
    if (takes_tableau(call.entry)) loans.push_back(Loan("cells", 3, bytes_of_cells(call.cells), call));
    return loans;
}

static Loans lent_to_fill(const Call &call) {
    Loans loans;
    for (size_t k = 0; k < call.rooms.size(); k++) loans.push_back(Loan("filled list " + std::to_string(k), 4 + k, call.before(k), call));
    return loans;
}

static Fields called_with_text(const Call &call, const Loans &read, const Loans &fill) {
    auto amounts = [&](size_t k) { return fill[k].lent.items<uint64_t>(); };
    const uint8_t *text = read[0].lent.items<uint8_t>();
    int64_t *cost = fill[2].lent.items<int64_t>();
    return fields_of(panel_read_sheet(text, call.text.size(), amounts(0), call.rooms[0], amounts(1), call.rooms[1], cost, call.rooms[2]));
}

static Fields called(const Lists &sheet, const Call &call, const Loans &read, const Loans &fill) {
    auto amounts = [&](size_t k) { return read[k].lent.items<uint64_t>(); };
    auto with_sheet = [&](auto entry, auto... rest) {
        const int64_t *cost = read[2].lent.items<int64_t>();
        return fields_of(entry(amounts(0), sheet.supply.size(), amounts(1), sheet.demand.size(), cost, sheet.cost.size(), rest...));
    };
    auto with_tableau = [&](auto entry, auto... rest) { return with_sheet(entry, read[3].lent.items<panel_cell>(), call.cells.size(), rest...); };
    auto price = [&](size_t k) { return fill[k].lent.items<int64_t>(); };
    const std::vector<size_t> &rooms = call.rooms;
    switch (call.entry) {
    case Entry::start: return with_sheet(panel_start);
    case Entry::round: return with_tableau(panel_round);
    case Entry::run: return with_tableau(panel_run, call.allowance);
    case Entry::settle: return with_tableau(panel_settle, fill[0].lent.items<uint64_t>(), rooms[0]);
    case Entry::solve: return with_sheet(panel_solve, price(0), rooms[0], price(1), rooms[1], fill[2].lent.items<uint64_t>(), rooms[2]);
    case Entry::write_sheet: return with_sheet(panel_write_sheet, fill[0].lent.items<uint8_t>(), rooms[0]);
    case Entry::write_plan: return with_sheet(panel_write_plan, fill[0].lent.items<uint8_t>(), rooms[0]);
    default: return called_with_text(call, read, fill);
    }
}

Outcome outcome_of(const Lists &sheet, const Call &call) {
    Loans read = lent_to_read(sheet, call), fill = lent_to_fill(call);
    Outcome outcome;
    for (Loan &loan : read)
        if (call.sealed) loan.lent.seal(true);
    int number = signal_in([&] { outcome.fields = called(sheet, call, read, fill); });
    for (Loan &loan : read)
        if (call.sealed) loan.lent.seal(false);
    if (number != 0) outcome.damage.push_back("the call ended by signal " + std::to_string(number));
    for (const Loan &loan : read)
        if (!loan.lent.holds(loan.before)) outcome.damage.push_back(loan.name + " changed");
    for (const Loans *loans : {&read, &fill})
        for (const Loan &loan : *loans)
            if (!loan.lent.keeps_guards()) outcome.damage.push_back("bytes around " + loan.name + " changed");
    for (const Loan &loan : fill) outcome.filled.push_back(loan.lent.now());
    return outcome;
}

// ---- telling

static const size_t most_shown = 2'000;

template <class Number> static void show(std::ostream &text, const char *name, const std::vector<Number> &numbers) {
    text << "  " << name << " " << numbers.size() << ":";
    for (size_t k = 0; k < std::min(numbers.size(), most_shown); k++) text << " " << numbers[k];
    text << (numbers.size() > most_shown ? " ..\n" : "\n");
}

static void show(std::ostream &text, const Cells &cells) {
    text << "  cells " << cells.size() << ":";
    for (size_t k = 0; k < std::min(cells.size(), most_shown); k++)
        text << " (" << cells[k].row << "," << cells[k].col << ")=(" << cells[k].amount.first << "," << cells[k].amount.second << ")";
    text << (cells.size() > most_shown ? " ..\n" : "\n");
}

std::string shown(const Lists &sheet, const Call &call) {
    std::ostringstream text;
    text << "  panel_" << name_of(call.entry) << ", lists at the end of their pages " << call.at_end << (call.sealed ? ", sealed" : "")
         << (call.shared ? ", shared" : "") << ", first byte " << (int)call.first_byte << "\n";
    if (call.entry == Entry::read_sheet) {
        text << "  text " << escaped(call.text) << "\n";
    } else {
        show(text, "supply", sheet.supply);
        show(text, "demand", sheet.demand);
        show(text, "cost", sheet.cost);
    }
    if (takes_tableau(call.entry)) show(text, call.cells);
    if (call.entry == Entry::run) text << "  allowance " << call.allowance << "\n";
    for (size_t room : call.rooms) text << "  room for " << room << "\n";
    return text.str();
}

static std::string shown(const Field &field) { return field.is_signed ? std::to_string((int64_t)field.value) : std::to_string(field.value); }

static void compare(std::ostream &text, const Fields &expected, const Fields &seen) {
    for (size_t k = 0; k < std::min(expected.size(), seen.size()); k++)
        if (expected[k].value != seen[k].value)
            text << "  " << expected[k].name << " " << expected[k].index << ": expected " << shown(expected[k]) << ", seen " << shown(seen[k]) << "\n";
}

// One place of a list.
static std::string shown(const Bytes &list, size_t place, size_t width) {
    int64_t number = 0;
    std::memcpy(&number, list.data() + place * width, width);
    return std::to_string(number);
}

static void compare(std::ostream &text, size_t which, size_t width, const Bytes &expected, const Bytes &seen) {
    for (size_t place = 0; place < expected.size() / width; place++)
        if (expected.compare(place * width, width, seen, place * width, width) != 0)
            text << "  place " << place << " of filled list " << which << ": expected " << shown(expected, place, width) << ", seen "
                 << shown(seen, place, width) << "\n";
}

std::string difference_of(const Call &call, const Outcome &expected, const Outcome &seen) {
    std::ostringstream text;
    for (const std::string &damage : seen.damage) text << "  " << damage << "\n";
    compare(text, expected.fields, seen.fields);
    for (size_t k = 0; k < seen.filled.size(); k++)
        if (expected.filled[k] != seen.filled[k]) compare(text, k, width_of(call.entry), expected.filled[k], seen.filled[k]);
    return text.str();
}
