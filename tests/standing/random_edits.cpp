#include "random_edits.h"
#include "../hostile/random_sheets.h"

#include <algorithm>

static const uint64_t bit32 = uint64_t{1} << 32, bit63 = uint64_t{1} << 63;

static Whole clamped(Whole number, Whole low, Whole high) { return std::min(std::max(number, low), high); }

static Lane any_lane(Dice &dice, const Sheet &sheet) {
    size_t row = dice.below(sheet.m()), col = dice.below(sheet.n());
    return {row, col};
}

// ---- costs

// A basic lane of the sheet, if the dice meet one, or any.
static Lane cost_lane(Dice &dice, const panel_standing &standing) {
    Lane lane = any_lane(dice, sheet_of(standing));
    const panel_cell &cell = standing.tableau.cells[dice.below(standing.tableau.count)];
    return dice.once_in(3) && cell.col < standing.sheet.n ? Lane{cell.row, cell.col} : lane;
}

// So that the kept tableau may not be finished any more: a lane at or below the sum of its prices
// gets dearer, and another cheaper than that sum.
static Whole unsettling_cost(Dice &dice, Whole had, Whole tight) {
    Whole by = dice.between(1, dice.one_of({1, 3, 1'000, most}));
    return had <= tight ? had + by : tight - by;
}

// Unsettling, or at or near the sum of its prices, near what it was, or anywhere within the limits.
Edit any_cost_edit(Dice &dice, const panel_standing &standing) {
    auto [row, col] = cost_lane(dice, standing);
    Prices known = prices_of(standing);
    Whole tight = known.u[row] + known.v[col], had = standing.sheet.cost[row * standing.sheet.n + col], cost = had;
    switch (dice.below(10)) {
    case 0: cost = tight; break;
    case 1: cost = tight + dice.between(-3, 3); break;
    case 2: cost = had + dice.between(-2, 2); break;
    case 3: cost = dice.between(-5, 5); break;
    case 4: cost = dice.one_of({0, most, -most, had}); break;
    case 5: cost = dice.between(-most, most); break;
    default: cost = unsettling_cost(dice, had, tight);
    }
    return cost_edit(row, col, clamped(cost, -most, most));
}

// ---- amounts

// What the supply has to be more than the demand, so that the totals are equal.
static Whole balancing_difference(const Sheet &sheet, Lane lane) {
    return (total(sheet.demand) - sheet.demand[lane.second]) - (total(sheet.supply) - sheet.supply[lane.first]);
}

// Both so that the totals are equal, or with so much of a surplus. The demand is up to `top` more
// than it has to be.
static Edit fitting_edit(Dice &dice, const Sheet &sheet, Lane lane, Whole top, Whole surplus) {
    Whole more = balancing_difference(sheet, lane), demand = std::max<Whole>(0, -more - surplus) + dice.between(0, top);
    return amount_edit(lane.first, lane.second, (uint64_t)std::max<Whole>(0, more + demand + surplus), (uint64_t)demand);
}

// Both by as much more or less.
static Edit shifted_edit(Dice &dice, const Sheet &sheet, Lane lane, Whole top) {
    Whole supply = sheet.supply[lane.first], demand = sheet.demand[lane.second];
    Whole by = clamped(dice.between(-top, top), -std::min(supply, demand), most - std::max(supply, demand));
    return amount_edit(lane.first, lane.second, (uint64_t)(supply + by), (uint64_t)(demand + by));
}

static Edit edit_of_amounts_in(Dice &dice, const Sheet &sheet, Lane lane) {
    Whole supply = sheet.supply[lane.first], demand = sheet.demand[lane.second], top = dice.one_of({1, 3, 10, 1'000, most});
    Whole more = dice.between(1, top), fewer = dice.between(0, demand);
    auto edit = [&](Whole new_supply, Whole new_demand) { return amount_edit(lane.first, lane.second, (uint64_t)new_supply, (uint64_t)new_demand); };
    switch (dice.below(9)) {
    case 0: return edit(supply, demand);
    case 1: return edit(supply, 0);
    case 2: return edit(std::max<Whole>(0, supply - demand), 0);
    case 3: return edit(0, std::max<Whole>(0, demand - supply));
    case 4: return edit(std::min(supply + more, most), fewer);
    case 5: return fitting_edit(dice, sheet, lane, top, 0);
    case 6: return fitting_edit(dice, sheet, lane, top, more);
    default: return shifted_edit(dice, sheet, lane, top);
    }
}

// Many on sheets of 32 cafés have to leave the totals equal.
Edit any_amount_edit(Dice &dice, const panel_standing &standing) {
    Sheet sheet = sheet_of(standing);
    Lane lane = any_lane(dice, sheet);
    if (sheet.n() == full && !dice.once_in(6)) return dice.once_in(2) ? shifted_edit(dice, sheet, lane, 1'000) : fitting_edit(dice, sheet, lane, 3, 0);
    return edit_of_amounts_in(dice, sheet, lane);
}

// ---- edits to refuse

// 12, and many at the place of the lane, or of another, for a careless count of places.
static void name_off_sheet(Dice &dice, const panel_standing &standing, Edit &edit) {
    const size_t m = standing.sheet.m, n = standing.sheet.n, row = edit.row, col = edit.col, far = SIZE_MAX;
    Lane lane = dice.one_of(std::initializer_list<Lane>{
        {m, col}, {row, n}, {m, n}, {m, 0}, {m - 1, n}, {far, col}, {row, far}, {far, far}, {bit63, col}, {row, bit63}, {bit63 + row, col},
        {row, bit63 + col}, {bit32 + row, col}, {row, bit32 + col}, {row + m, col}, {row, col + n}, {32, col}, {row, 32}, {row + 32, col}, {row, col + 32},
        {row + 64, col}, {row + 256, col}, {row, col + 256}, {row - std::min<size_t>(row, 1), col + n}, {row + 1, col - n}, {col, row}, {31, 31}});
    edit.row = lane.first;
    edit.col = lane.second;
}

// The number that has these bits.
static Whole signed_of(uint64_t bits) { return (Whole)bits; }

// 4 or 3
static void put_beyond_limits(Dice &dice, Edit &edit) {
    uint64_t cost = (uint64_t)edit.cost;
    edit.cost = dice.one_of({most + 1, -most - 1, INT64_MIN, INT64_MIN + 1, INT64_MAX, signed_of(bit32 + cost), signed_of(bit63 + cost),
                             signed_of(dice.any())});
    uint64_t &amount = dice.once_in(2) ? edit.supply : edit.demand;
    amount = dice.one_of<uint64_t>({most + 1, bit32, bit32 + amount, bit63 - 1, bit63, bit63 + amount, UINT64_MAX, -amount, dice.any()});
}

// 5, or just not
static Edit lacking_edit(Dice &dice, const Sheet &sheet, Lane lane) {
    Edit edit = fitting_edit(dice, sheet, lane, 3, 0);
    edit.demand += (uint64_t)dice.one_of({0, 1, 1, 2, 1'000});
    return edit;
}

// 10 if there are 32 cafés
static Edit crowding_edit(Dice &dice, const Sheet &sheet, Lane lane) { return fitting_edit(dice, sheet, lane, 3, dice.one_of({0, 1, 1, 1'000})); }

// 11 if no other café is open. The supply stays or goes.
static Edit closing_edit(Dice &dice, const Sheet &sheet, Lane lane) {
    for (size_t col = 0; col < sheet.n(); col++)
        if (sheet.demand[col] > 0) lane.second = col;
    return amount_edit(lane.first, lane.second, dice.once_in(2) ? 0 : (uint64_t)sheet.supply[lane.first], 0);
}

static Edit edit_at_the_limits(Dice &dice, const Sheet &sheet, Lane lane) {
    if (dice.once_in(2)) return cost_edit(lane.first, lane.second, dice.one_of({most, most + 1, -most, -most - 1}));
    Whole supply = dice.one_of({0, 1, most - 1, most, most + 1}), demand = dice.one_of({0, 1, most - 1, most, most + 1, sheet.demand[lane.second]});
    return amount_edit(lane.first, lane.second, (uint64_t)supply, (uint64_t)demand);
}

Edit refusable_edit(Dice &dice, const panel_standing &standing) {
    Sheet sheet = sheet_of(standing);
    Lane lane = any_lane(dice, sheet);
    Edit edit = dice.once_in(2) ? any_cost_edit(dice, standing) : any_amount_edit(dice, standing);
    switch (dice.below(7)) {
    case 0: break;
    case 1: put_beyond_limits(dice, edit); break;
    case 2: edit = lacking_edit(dice, sheet, lane); break;
    case 3: edit = crowding_edit(dice, sheet, lane); break;
    case 4: edit = closing_edit(dice, sheet, lane); break;
    case 5: edit = edit_at_the_limits(dice, sheet, lane); break;
    default: name_off_sheet(dice, standing, edit);
    }
    if (dice.once_in(6)) put_beyond_limits(dice, edit);
    if (dice.once_in(6)) name_off_sheet(dice, standing, edit);
    return edit;
}

Edit any_edit(Dice &dice, const panel_standing &standing) {
    if (dice.once_in(7)) return refusable_edit(dice, standing);
    return dice.once_in(2) ? any_cost_edit(dice, standing) : any_amount_edit(dice, standing);
}

// ---- rooms

static size_t wide_room(Dice &dice, size_t needed) { return dice.one_of({needed, needed, needed + 1, needed + dice.below(50), size_t{PANEL_MAX_LANES}}); }

static size_t any_room(Dice &dice, size_t needed) { return dice.one_of({needed - 1, needed - 1, size_t{0}, dice.below(needed), needed, needed}); }

Rooms wide_rooms(Dice &dice, const panel_standing &standing) {
    if (dice.once_in(30)) return any_rooms(dice, standing);
    Rooms rooms = needs_of(standing);
    for (size_t &room : rooms) room = wide_room(dice, room);
    return rooms;
}

// One of the lists, or each, may be too short.
Rooms any_rooms(Dice &dice, const panel_standing &standing) {
    Rooms rooms = needs_of(standing);
    if (dice.once_in(3)) {
        for (size_t &room : rooms) room = any_room(dice, room);
        return rooms;
    }
    size_t &one = dice.one_of(rooms);
    one = any_room(dice, one);
    return rooms;
}
