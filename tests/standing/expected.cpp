#include "expected.h"

#include <algorithm>

static void claim(bool holds, const char *what) {
    if (!holds) throw Broken(what);
}

// ---- structs

Lists lists_of(const panel_sheet &sheet) {
    return {Numbers(sheet.supply, sheet.supply + sheet.m), Numbers(sheet.demand, sheet.demand + sheet.n), List(sheet.cost, sheet.cost + sheet.m * sheet.n)};
}

Cells cells_of(const panel_tableau &tableau) {
    Cells cells;
    for (const panel_cell *cell = tableau.cells; cell < tableau.cells + tableau.count; cell++)
        cells.push_back({cell->row, cell->col, {cell->amount.q, cell->amount.e}});
    return cells;
}

panel_tableau tableau_struct(const Tableau &tableau) {
    panel_tableau all = {};
    for (const auto &[lane, amount] : tableau) all.cells[all.count++] = {lane.first, lane.second, {amount.first, amount.second}};
    return all;
}

panel_standing standing_struct(const Lists &lists, const Tableau &tableau, uint64_t counter) {
    panel_standing standing = {};
    standing.sheet.m = lists.supply.size();
    standing.sheet.n = lists.demand.size();
    std::copy(lists.supply.begin(), lists.supply.end(), standing.sheet.supply);
    std::copy(lists.demand.begin(), lists.demand.end(), standing.sheet.demand);
    std::copy(lists.cost.begin(), lists.cost.end(), standing.sheet.cost);
    standing.tableau = tableau_struct(tableau);
    standing.counter = counter;
    return standing;
}

Sheet sheet_of(const panel_standing &standing) { return sheet_of(lists_of(standing.sheet)); }

Sheet extended_of(const panel_standing &standing) { return extended(sheet_of(standing)); }

static Tableau tableau_of(const panel_standing &standing) { return tableau_of(cells_of(standing.tableau)); }

Prices prices_of(const panel_standing &standing) { return prices(extended_of(standing), tableau_of(standing)); }

Rooms needs_of(const panel_standing &standing) { return {standing.sheet.m, standing.sheet.n, standing.sheet.m * standing.sheet.n}; }

// ---- the first check

static bool is_side(size_t count) { return 1 <= count && count <= PANEL_MAX_SIDE; }

int refusal_of(const panel_standing &standing) {
    if (!is_side(standing.sheet.m) || !is_side(standing.sheet.n)) return 1;
    int refusal = refusal_of(lists_of(standing.sheet));
    if (refusal != no_refusal) return refusal;
    Sheet extended = extended_of(standing);
    if (standing.tableau.count > PANEL_MAX_CELLS || !belongs(extended, cells_of(standing.tableau))) return 6;
    return Path(extended, tableau_of(standing)).after(0).finished ? no_refusal : 7;
}

// ---- set up

Outcome expected_set_up(const Lists &lists) {
    Outcome outcome;
    outcome.refusal = refusal_of(lists);
    if (outcome.refusal != no_refusal) return outcome;
    Sheet extended = ::extended(sheet_of(lists));
    outcome.standing = standing_struct(lists, Path(extended, start(extended)).end().tableau, 0);
    return outcome;
}

// ---- edits

Lists edited(Lists lists, const Edit &edit) {
    if (edit.of_cost) {
        lists.cost[edit.row * lists.demand.size() + edit.col] = edit.cost;
    } else {
        lists.supply[edit.row] = edit.supply;
        lists.demand[edit.col] = edit.demand;
    }
    return lists;
}

// The struct with the same done to it. What stands behind the lists stays.
static panel_standing stands_after(const panel_standing &standing, const Edit &edit, const Tableau &reached) {
    panel_standing after = standing;
    if (edit.of_cost) {
        after.sheet.cost[edit.row * after.sheet.n + edit.col] = edit.cost;
    } else {
        after.sheet.supply[edit.row] = edit.supply;
        after.sheet.demand[edit.col] = edit.demand;
    }
    after.tableau = tableau_struct(reached);
    after.counter++;
    return after;
}

// 12
static bool is_bad(const panel_standing &standing, const Edit &edit) {
    return edit.row >= standing.sheet.m || edit.col >= standing.sheet.n || standing.counter == largest_counter;
}

static int refusal_as_solve(const Lists &lists, const Rooms &rooms) {
    int refusal = refusal_of(lists);
    if (refusal != no_refusal) return refusal;
    size_t m = lists.supply.size(), n = lists.demand.size();
    return rooms[0] < m || rooms[1] < n || rooms[2] < m * n ? 8 : no_refusal;
}

static Numbers joined(const Grid &plan) {
    Numbers all;
    for (const List &row : plan) all.insert(all.end(), row.begin(), row.end());
    return all;
}

static void put_front(Bytes &list, const Bytes &front) { list.replace(0, front.size(), front); }

// An accepted edit: cost, prices and plan are those of solving from nothing; rounds and tableau are
// those reached from where the edit begins.
static void carry_out(const panel_standing &standing, const Edit &edit, Owed &owed) {
    Sheet sheet = sheet_of(edited(lists_of(standing.sheet), edit)), extended = ::extended(sheet);
    Path from_nothing(extended, start(extended)), from_kept(extended, edit.of_cost ? tableau_of(standing) : start(extended));
    const Path::Stop &end = from_kept.end();
    Solution solution = solution_at(sheet, from_nothing.end());
    claim(end.prices.u == from_nothing.end().prices.u && end.prices.v == from_nothing.end().prices.v, "finished tableaux of a sheet have the same prices");
    owed.rounds_from_nothing = solution.rounds;
    owed.outcome.cost = solution.cost;
    owed.outcome.rounds = end.rounds;
    owed.outcome.standing = stands_after(standing, edit, end.tableau);
    put_front(owed.outcome.filled[0], bytes_of(solution.prices.u));
    put_front(owed.outcome.filled[1], bytes_of(solution.prices.v));
    put_front(owed.outcome.filled[2], bytes_of(joined(solution.plan)));
}

Owed expected_edit(const panel_standing &standing, const Edit &edit, const Rooms &rooms, const Lending &lending) {
    Owed owed = {{}, false, 0};
    Outcome &outcome = owed.outcome;
    outcome.standing = standing;
    for (size_t room : rooms) outcome.filled.push_back(lending.before(room));
    outcome.refusal = refusal_of(standing);
    if (outcome.refusal == no_refusal && is_bad(standing, edit)) outcome.refusal = 12;
    if (outcome.refusal != no_refusal) return owed;
    owed.as_solve = true;
    outcome.refusal = refusal_as_solve(edited(lists_of(standing.sheet), edit), rooms);
    if (outcome.refusal == no_refusal) carry_out(standing, edit, owed);
    return owed;
}
