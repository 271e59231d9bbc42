#include "expected.h"

#include <algorithm>

Known::Known(const Lists &lists)
    : lists(lists), refusal(refusal_of(lists)), sheet(refusal == no_refusal ? sheet_of(lists) : Sheet()), extended(::extended(sheet)) {}

Path &Known::path_from(const Tableau &tableau) {
    auto place = paths.find(tableau);
    if (place == paths.end()) place = paths.emplace(tableau, Path(extended, tableau)).first;
    return place->second;
}

const Solution &Known::solution() {
    if (!found) found = solution_at(sheet, path_from_start().end());
    return *found;
}

// ---- parts of results

static panel_tableau given(const Tableau &tableau) {
    panel_tableau result = {};
    for (const auto &[lane, amount] : tableau) result.cells[result.count++] = {lane.first, lane.second, {amount.first, amount.second}};
    return result;
}

static Numbers joined(const Grid &plan) {
    Numbers all;
    for (const List &row : plan) all.insert(all.end(), row.begin(), row.end());
    return all;
}

static bool any_too_short(const std::vector<size_t> &rooms, const std::vector<size_t> &needs) {
    for (size_t k = 0; k < rooms.size(); k++)
        if (rooms[k] < needs[k]) return true;
    return false;
}

// The lists that a call may fill, with these at their fronts. None if it refuses.
static std::vector<Bytes> lists_after(const Call &call, const std::vector<Bytes> &fronts) {
    std::vector<Bytes> lists;
    for (size_t k = 0; k < call.rooms.size(); k++) {
        lists.push_back(call.before(k));
        if (!fronts.empty()) lists[k].replace(0, fronts[k].size(), fronts[k]);
    }
    return lists;
}

static int refusal_with_cells(const Known &known, const Cells &cells) {
    if (known.refusal != no_refusal) return known.refusal;
    return belongs(known.extended, cells) ? no_refusal : 6;
}

// The text that write sheet or write plan writes.
static std::string written(Known &known, Entry entry) {
    return entry == Entry::write_sheet ? sheet_text(known.sheet) : plan_text(known.solution());
}

std::vector<size_t> needs_of(Known &known, const Call &call) {
    if (call.entry == Entry::read_sheet) {
        Reading reading = read_sheet(call.text);
        return {reading.sheet.m(), reading.sheet.n(), reading.sheet.m() * reading.sheet.n()};
    }
    size_t m = known.lists.supply.size(), n = known.lists.demand.size();
    if (call.entry == Entry::settle) return {m * n};
    if (call.entry == Entry::solve) return {m, n, m * n};
    if (width_of(call.entry) == 1) return {known.refusal == no_refusal ? written(known, call.entry).size() : 0};
    return {};
}

// ---- calls

static Outcome expected_start(Known &known) {
    panel_start_result result = {};
    result.refusal = (uint8_t)known.refusal;
    if (result.refusal == no_refusal) result.tableau = given(start(known.extended));
    return {fields_of(result), {}, {}};
}

static Outcome expected_round(Known &known, const Call &call) {
    panel_round_result result = {};
    result.refusal = (uint8_t)refusal_with_cells(known, call.cells);
    if (result.refusal != no_refusal) return {fields_of(result), {}, {}};
    Path &path = known.path_from(tableau_of(call.cells));
    const Path::Stop &stop = path.after(0);
    result.finished = stop.finished;
    if (stop.finished) {
        std::copy(stop.prices.u.begin(), stop.prices.u.end(), result.u);
        std::copy_n(stop.prices.v.begin(), known.sheet.n(), result.v);
    } else {
        result.tableau = given(path.after(1).tableau);
    }
    return {fields_of(result), {}, {}};
}

static Outcome expected_run(Known &known, const Call &call) {
    panel_run_result result = {};
    result.refusal = (uint8_t)refusal_with_cells(known, call.cells);
    if (result.refusal != no_refusal) return {fields_of(result), {}, {}};
    const Path::Stop &stop = known.path_from(tableau_of(call.cells)).after(call.allowance);
    result.finished = stop.finished;
    result.rounds = stop.rounds;
    result.tableau = given(stop.tableau);
    return {fields_of(result), {}, {}};
}

static Outcome expected_settle(Known &known, const Call &call) {
    int refusal = refusal_with_cells(known, call.cells);
    if (refusal == no_refusal && !known.path_from(tableau_of(call.cells)).after(0).finished) refusal = 7;
    if (refusal == no_refusal && any_too_short(call.rooms, needs_of(known, call))) refusal = 8;
    std::vector<Bytes> fronts;
    if (refusal == no_refusal) fronts = {bytes_of(joined(known.solution().plan))};
    return {fields_of((uint8_t)refusal), lists_after(call, fronts), {}};
}

static Outcome expected_solve(Known &known, const Call &call) {
    panel_solve_result result = {};
    result.refusal = (uint8_t)known.refusal;
    if (result.refusal == no_refusal && any_too_short(call.rooms, needs_of(known, call))) result.refusal = 8;
    if (result.refusal != no_refusal) return {fields_of(result), lists_after(call, {}), {}};
    const Solution &solution = known.solution();
    result.cost = solution.cost;
    result.rounds = solution.rounds;
    return {fields_of(result), lists_after(call, {bytes_of(solution.prices.u), bytes_of(solution.prices.v), bytes_of(joined(solution.plan))}), {}};
}

static Outcome expected_read(Known &known, const Call &call) {
    Reading reading = read_sheet(call.text);
    panel_read_result result = {};
    result.refusal = (uint8_t)reading.refusal;
    result.place = reading.place;
    if (result.refusal == no_refusal && any_too_short(call.rooms, needs_of(known, call))) result.refusal = 8;
    if (result.refusal != no_refusal) return {fields_of(result), lists_after(call, {}), {}};
    result.sources = reading.sheet.m();
    result.sinks = reading.sheet.n();
    Lists lists = lists_of(reading.sheet);
    return {fields_of(result), lists_after(call, {bytes_of(lists.supply), bytes_of(lists.demand), bytes_of(lists.cost)}), {}};
}

static Outcome expected_write(Known &known, const Call &call) {
    panel_write_result result = {};
    result.refusal = (uint8_t)known.refusal;
    if (result.refusal == no_refusal && any_too_short(call.rooms, needs_of(known, call))) result.refusal = 8;
    if (result.refusal != no_refusal) return {fields_of(result), lists_after(call, {}), {}};
    std::string text = written(known, call.entry);
    result.length = text.size();
    return {fields_of(result), lists_after(call, {text}), {}};
}

Outcome expected(Known &known, const Call &call) {
    switch (call.entry) {
    case Entry::start: return expected_start(known);
    case Entry::round: return expected_round(known, call);
    case Entry::run: return expected_run(known, call);
    case Entry::settle: return expected_settle(known, call);
    case Entry::solve: return expected_solve(known, call);
    case Entry::read_sheet: return expected_read(known, call);
    default: return expected_write(known, call);
    }
}
