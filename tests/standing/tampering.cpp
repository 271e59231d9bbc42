#include "tampering.h"
#include "../hostile/random_sheets.h"
#include "../hostile/random_tableaux.h"
#include "random_edits.h"

#include <algorithm>
#include <cstring>

static const uint64_t bit32 = uint64_t{1} << 32, bit63 = uint64_t{1} << 63;

// Near the number, far from it, or with the same last bits.
static uint64_t odd_number(Dice &dice, uint64_t number) {
    return dice.one_of<uint64_t>({0, 1, 31, 32, 33, 62, 63, 64, 65, 1'024, number + 1, number - 1, -number, number + 32, number + 256, bit32, bit32 + number,
                                  bit63 - 1, bit63, bit63 + number, UINT64_MAX, UINT64_MAX - 1, dice.any()});
}

static uint64_t odd_amount(Dice &dice, uint64_t amount) {
    return dice.one_of<uint64_t>({0, 0, 1, amount + 1, amount - 1, most, most + 1, -amount, bit32 + amount, bit63, bit63 + amount, UINT64_MAX, dice.any()});
}

static Whole odd_signed(Dice &dice, Whole number) {
    uint64_t bits = (uint64_t)number;
    auto at = [](uint64_t bits) { return (Whole)bits; };
    return dice.one_of({0, 1, -1, most, -most, most + 1, -most - 1, at(bits + 1), at(bits - 1), at(-bits), at(bit32 + bits), at(bit63 + bits), at(bit63),
                        INT64_MAX, INT64_MIN + 1, at(dice.any())});
}

// ---- the sheet

void tamper_with_sides(Dice &dice, panel_standing &standing) {
    panel_sheet &sheet = standing.sheet;
    size_t one = (size_t)dice.one_of({1, -1});
    switch (dice.below(6)) {
    case 0: return std::swap(sheet.m, sheet.n);
    case 1: sheet.m += one; return;
    case 2: sheet.n += one; return;
    case 3: sheet.m = odd_number(dice, sheet.m); return;
    case 4: sheet.n = odd_number(dice, sheet.n); return;
    default:
        sheet.m = odd_number(dice, sheet.m);
        sheet.n = odd_number(dice, sheet.n);
    }
}

// A place at the front, where the struct says that so many are. These may be none, or more than
// there is room for.
static size_t any_place(Dice &dice, size_t count, size_t room) { return dice.below(std::max<size_t>(1, std::min(count, room))); }

// One of them becomes odd; or one gets more and another as much less, perhaps modulo 2^64.
void tamper_with_amounts(Dice &dice, panel_standing &standing) {
    panel_sheet &sheet = standing.sheet;
    uint64_t &supply = sheet.supply[any_place(dice, sheet.m, PANEL_MAX_SIDE)], &demand = sheet.demand[any_place(dice, sheet.n, PANEL_MAX_SIDE)];
    uint64_t &other = sheet.supply[any_place(dice, sheet.m, PANEL_MAX_SIDE)], &other_demand = sheet.demand[any_place(dice, sheet.n, PANEL_MAX_SIDE)];
    uint64_t step = dice.one_of<uint64_t>({1, bit32, bit63, dice.any()});
    switch (dice.below(6)) {
    case 0:
    case 1: supply = odd_amount(dice, supply); return;
    case 2:
    case 3: demand = odd_amount(dice, demand); return;
    case 4:
        supply += step;
        other -= step;
        return;
    default:
        (dice.once_in(2) ? demand : supply) += step;
        other_demand -= step;
    }
}

// The last one often.
void tamper_with_costs(Dice &dice, panel_standing &standing) {
    panel_sheet &sheet = standing.sheet;
    size_t lanes = std::min<size_t>(sheet.m, PANEL_MAX_SIDE) * std::min<size_t>(sheet.n, PANEL_MAX_SIDE), place = any_place(dice, lanes, PANEL_MAX_LANES);
    int64_t &cost = sheet.cost[dice.once_in(4) && lanes > 0 ? lanes - 1 : place];
    cost = odd_signed(dice, cost);
}

// ---- tableau and counter

void tamper_with_count(Dice &dice, panel_standing &standing) { standing.tableau.count = odd_number(dice, standing.tableau.count); }

void tamper_with_cells(Dice &dice, panel_standing &standing) {
    panel_cell &cell = standing.tableau.cells[any_place(dice, standing.tableau.count, PANEL_MAX_CELLS)];
    switch (dice.below(5)) {
    case 0: cell.row = odd_number(dice, cell.row); return;
    case 1: cell.col = odd_number(dice, cell.col); return;
    case 2: cell.amount.q = odd_signed(dice, cell.amount.q); return;
    case 3: cell.amount.e = odd_signed(dice, cell.amount.e); return;
    default: std::swap(cell, standing.tableau.cells[any_place(dice, standing.tableau.count, PANEL_MAX_CELLS)]);
    }
}

void tamper_with_counter(Dice &dice, panel_standing &standing) {
    standing.counter = dice.one_of<uint64_t>({0, 1, bit32 - 1, bit32, bit63 - 1, bit63, largest_counter - 1, largest_counter, dice.any()});
}

// As many cells as there is room for. The count is that of all.
static void put(panel_standing &standing, const Cells &cells) {
    for (size_t k = 0; k < std::min<size_t>(cells.size(), PANEL_MAX_CELLS); k++)
        standing.tableau.cells[k] = {cells[k].row, cells[k].col, {cells[k].amount.first, cells[k].amount.second}};
    standing.tableau.count = cells.size();
}

void take_false_tableau(Dice &dice, panel_standing &standing) {
    static const std::vector<Change> changes = {change_count,       put_off_sheet,  change_order, change_amounts,
                                                change_last_column, change_parties, shift_pairs,  put_noise};
    Cells cells = cells_of(standing.tableau);
    dice.one_of(changes)(dice, extended_of(standing), cells);
    put(standing, cells);
}

static bool is_on_sheet(const panel_standing &standing, const Edit &edit) { return edit.row < standing.sheet.m && edit.col < standing.sheet.n; }

// An edit away.
static Lists nearby_lists(Dice &dice, const panel_standing &standing) {
    Edit edit = any_edit(dice, standing);
    while (!is_on_sheet(standing, edit)) edit = any_edit(dice, standing);
    return edited(lists_of(standing.sheet), edit);
}

// With as many parties, or one fewer.
static Lists other_lists(Dice &dice, const panel_standing &standing) {
    auto perhaps_fewer = [&](size_t count) { return count > 1 && dice.once_in(2) ? count - 1 : count; };
    size_t m = perhaps_fewer(standing.sheet.m), n = perhaps_fewer(standing.sheet.n);
    return lists_of(filled(dice, blank(m, n)));
}

void take_other_tableau(Dice &dice, panel_standing &standing) {
    Lists lists = nearby_lists(dice, standing);
    if (refusal_of(lists) != no_refusal || dice.once_in(3)) lists = other_lists(dice, standing);
    standing.tableau = expected_set_up(lists).standing.tableau;
}

static Tableau tableau_in(const panel_standing &standing) { return tableau_of(cells_of(standing.tableau)); }

// On the way to the finished one, or off it.
void take_unfinished_tableau(Dice &dice, panel_standing &standing) {
    Sheet extended = extended_of(standing);
    Path path(extended, start(extended));
    Tableau tableau = path.after(0).tableau;
    switch (dice.below(4)) {
    case 0: break;
    case 1: tableau = path.after(dice.below(path.end().rounds + 1)).tableau; break;
    case 2: tableau = path.after(path.end().rounds - std::min<uint64_t>(1, path.end().rounds)).tableau; break;
    default: tableau = wandered(dice, extended, tableau_in(standing), 1 + dice.below(3));
    }
    put(standing, cells_of(tableau));
}

void take_other_finished_tableau(Dice &dice, panel_standing &standing) {
    Sheet extended = extended_of(standing);
    put(standing, cells_of(wandered_among_finished(dice, extended, prices_of(standing), tableau_in(standing), 1 + dice.below(5))));
}

// ---- anywhere

// The standing sheet as the numbers that it is.
using Words = std::array<uint64_t, sizeof(panel_standing) / 8>;

static Words words_of(const panel_standing &standing) {
    Words words;
    std::memcpy(words.data(), &standing, sizeof standing);
    return words;
}

static void put(panel_standing &standing, const Words &words) { std::memcpy((void *)&standing, words.data(), sizeof standing); }

// The places of the numbers that the first check may look at.
static std::vector<size_t> places_in_use(const panel_standing &standing) {
    std::vector<size_t> places;
    auto add = [&](const void *from, size_t count) {
        size_t first = (size_t)((const char *)from - (const char *)&standing) / 8;
        for (size_t k = 0; k < count; k++) places.push_back(first + k);
    };
    const panel_sheet &sheet = standing.sheet;
    add(&sheet, 2);
    add(sheet.supply, sheet.m);
    add(sheet.demand, sheet.n);
    add(sheet.cost, std::min<size_t>(sheet.m * sheet.n, 20));
    add(standing.tableau.cells, 4 * standing.tableau.count);
    add(&standing.tableau.count, 2);
    return places;
}

void flip_bits(Dice &dice, panel_standing &standing) {
    Words words = words_of(standing);
    std::vector<size_t> places = places_in_use(standing);
    for (size_t flips = 1 + dice.below(3); flips > 0; flips--) {
        size_t place = dice.once_in(3) ? dice.below(words.size()) : dice.one_of(places);
        words[place] ^= uint64_t{1} << (dice.once_in(2) ? dice.below(64) : dice.below(6));
    }
    put(standing, words);
}

static uint64_t noise(Dice &dice, size_t way, size_t shift) {
    switch (way) {
    case 0: return 0;
    case 1: return UINT64_MAX;
    case 2: return dice.any();
    case 3: return dice.any() >> shift;
    default: return dice.any() >> dice.below(64);
    }
}

// Random numbers, of 64 bits or of fewer, or all bits alike.
void take_noise(Dice &dice, panel_standing &standing) {
    const panel_sheet sheet = standing.sheet;
    size_t way = dice.below(6), shift = dice.below(64), kept = dice.below(4);
    Words words;
    for (uint64_t &word : words) word = noise(dice, way, shift);
    put(standing, words);
    if (kept == 0) standing.sheet = sheet;
    if (kept == 1) standing.sheet.m = sheet.m;
    if (kept == 1) standing.sheet.n = sheet.n;
}

// ---- spare places

template <class Number> static void fill_with_noise(Dice &dice, Number *from, Number *end) {
    uint64_t any = dice.any();
    size_t way = dice.below(4);
    for (; from < end; from++) *from = (Number)(way == 0 ? any : way == 1 ? UINT64_MAX : way == 2 ? dice.below(4) : dice.any());
}

void fill_spare(Dice &dice, panel_standing &standing) {
    panel_sheet &sheet = standing.sheet;
    fill_with_noise(dice, sheet.supply + sheet.m, sheet.supply + PANEL_MAX_SIDE);
    fill_with_noise(dice, sheet.demand + sheet.n, sheet.demand + PANEL_MAX_SIDE);
    fill_with_noise(dice, sheet.cost + sheet.m * sheet.n, sheet.cost + PANEL_MAX_LANES);
    if (dice.once_in(3)) return;
    for (size_t k = standing.tableau.count; k < PANEL_MAX_CELLS; k++) {
        size_t row = dice.any() >> dice.below(64), col = dice.any() >> dice.below(64);
        standing.tableau.cells[k] = {row, col, {(Whole)dice.any(), (Whole)dice.any()}};
    }
}
