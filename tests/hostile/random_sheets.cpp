#include "random_sheets.h"

#include <algorithm>
#include <cstdlib>
#include <functional>

// ---- bags

Sheet blank(size_t m, size_t n) { return {List(m, 1), List(n, 1), Grid(m, List(n, 0))}; }

static Sheet blank_to(Dice &dice, size_t top) {
    size_t m = 1 + dice.below(top), n = 1 + dice.below(top);
    return blank(m, n);
}

// Moves random bags on and off until the totals are equal, within the limits.
static void balance(Dice &dice, Sheet &sheet) {
    while (total(sheet.supply) != total(sheet.demand)) {
        Whole over = total(sheet.supply) - total(sheet.demand);
        bool raise = dice.once_in(2);
        Whole &bags = dice.one_of(raise == (over < 0) ? sheet.supply : sheet.demand);
        Whole change = dice.between(0, std::min(std::abs(over), raise ? most - bags : bags - 1));
        bags += raise ? change : -change;
    }
}

// Gives one roastery that has bags or each such up to `top` units more, or as many bags as it may have. A balanced sheet then has a surplus, unless they had
// as many before.
static void add_surplus(Dice &dice, Sheet &sheet, Whole top, Whole unit) {
    std::vector<Whole *> left;
    for (Whole &bags : sheet.supply)
        if (bags > 0) left.push_back(&bags);
    auto raise = [&](Whole *bags, Whole units) { *bags = std::min(*bags + units * unit, most); };
    switch (dice.below(6)) {
    case 0:
        for (Whole *bags : left) *bags = most;
        return;
    case 1: *dice.one_of(left) = most; return;
    case 2: return raise(dice.one_of(left), 1);
    case 3: return raise(left.back(), dice.between(1, top));
    default:
        raise(dice.one_of(left), 1);
        for (Whole *bags : left) raise(bags, dice.between(0, top));
    }
}

// Half of the sheets that have room for the extra café get a surplus.
static void perhaps_add_surplus(Dice &dice, Sheet &sheet, Whole top, Whole unit) {
    if (sheet.n() < full && dice.once_in(2)) add_surplus(dice, sheet, top, unit);
}

// Some of so many parties, at least one: two in three, few, or all but the first or the last.
static std::vector<size_t> some_of(Dice &dice, size_t count) {
    size_t way = dice.below(6);
    std::vector<size_t> some;
    for (size_t k = 0; k < count; k++) {
        bool stays = way == 0 ? k > 0 : way == 1 ? k + 1 < count : way == 2 ? dice.once_in(4) : !dice.once_in(3);
        if (stays) some.push_back(k);
    }
    if (some.empty()) some.push_back(dice.below(count));
    return some;
}

// Gives bags to all parties of the sheet, or in half of the sheets to some, as to a sheet of their own, and none to the others.
static void give_bags(Dice &dice, Sheet &sheet, const std::function<void(Sheet &)> &give) {
    if (dice.once_in(2)) return give(sheet);
    std::vector<size_t> rows = some_of(dice, sheet.m()), cols = some_of(dice, sheet.n());
    Sheet left = blank(rows.size(), cols.size());
    give(left);
    sheet.supply.assign(sheet.m(), 0);
    sheet.demand.assign(sheet.n(), 0);
    for (size_t k = 0; k < rows.size(); k++) sheet.supply[rows[k]] = left.supply[k];
    for (size_t k = 0; k < cols.size(); k++) sheet.demand[cols[k]] = left.demand[k];
}

static void random_bags(Dice &dice, Sheet &sheet, Whole top) {
    give_bags(dice, sheet, [&](Sheet &left) {
        for (Whole &bags : left.supply) bags = dice.between(1, top);
        for (Whole &bags : left.demand) bags = dice.between(1, top);
        balance(dice, left);
    });
    perhaps_add_surplus(dice, sheet, top, 1);
}

// Cuts a bar of so many units into as many parts as the list has.
static void cut_bar(Dice &dice, List &parts, size_t units, Whole unit) {
    std::vector<bool> cut(units + 1, false);
    cut[0] = cut[units] = true;
    for (size_t cuts = 1; cuts < parts.size();) {
        size_t place = 1 + dice.below(units - 1);
        if (!cut[place]) cuts++;
        cut[place] = true;
    }
    size_t part = 0, last = 0;
    for (size_t place = 1; place <= units; place++) {
        if (!cut[place]) continue;
        parts[part++] = (Whole)(place - last) * unit;
        last = place;
    }
}

// Few units in all, so that many sums of first supplies are sums of first demands too.
static void tied_bags(Dice &dice, Sheet &sheet) {
    Whole unit = dice.one_of({1, 7, most / 64});
    give_bags(dice, sheet, [&](Sheet &left) {
        size_t parties = std::max(left.m(), left.n());
        size_t units = parties + dice.below(parties + 1);
        cut_bar(dice, left.supply, units, unit);
        cut_bar(dice, left.demand, units, unit);
    });
    perhaps_add_surplus(dice, sheet, 2, unit);
}

static void any_bags(Dice &dice, Sheet &sheet) {
    if (dice.once_in(3)) tied_bags(dice, sheet);
    else random_bags(dice, sheet, dice.one_of({1, 5, 1'000, most}));
}

// ---- costs

// The least and the greatest cost: from 0 on, up to 0, or of both signs.
static std::pair<Whole, Whole> any_range(Dice &dice, Whole top) {
    return dice.one_of(std::initializer_list<std::pair<Whole, Whole>>{{0, top}, {-top, 0}, {-top, top}, {-top, dice.between(-top, top)}});
}

void random_costs(Dice &dice, Sheet &sheet, Whole top) {
    auto [low, high] = any_range(dice, top);
    for (List &row : sheet.cost)
        for (Whole &cost : row) cost = dice.between(low, high);
}

// The least or the greatest. The prices of the first tableaux grow large.
static void far_costs(Dice &dice, Sheet &sheet) {
    auto [low, high] = any_range(dice, most);
    for (List &row : sheet.cost)
        for (Whole &cost : row) cost = dice.one_of({low, high});
}

// A part for the roastery and a part for the café, so that every plan costs the same; or nearly so.
static void summed_costs(Dice &dice, Sheet &sheet) {
    auto [low, high] = any_range(dice, dice.one_of({0, 2, most / 2}));
    List columns(sheet.n());
    for (Whole &part : columns) part = dice.between(low, high);
    for (List &row : sheet.cost) {
        Whole part = dice.between(low, high);
        for (size_t j = 0; j < row.size(); j++) row[j] = part + columns[j];
    }
    for (size_t change = dice.below(4); change > 0; change--) dice.one_of(dice.one_of(sheet.cost)) = dice.between(2 * low, 2 * high);
}

static void equal_costs(Dice &dice, Sheet &sheet) {
    Whole cost = dice.one_of({0, 1, -1, dice.between(-most, most), most, -most});
    for (List &row : sheet.cost) row.assign(row.size(), cost);
}

static Whole orderly_cost(int order, Whole i, Whole j) {
    switch (order) {
    case 0: return i * j;
    case 1: return (31 - i) * j;
    case 2: return std::abs(i - j);
    case 3: return (i - j) * (i - j);
    case 4: return (i + j) % 3;
    case 5: return i ^ j;
    case 6: return i == j ? 0 : 961;
    default: return i == j ? 961 : 0;
    }
}

// Those of an order, as they are or less some, or as far on the other side of 0.
static void orderly_costs(Dice &dice, Sheet &sheet) {
    int order = (int)dice.below(8);
    Whole factor = dice.one_of({1, 1, most / 961, -1, -most / 961}), less = dice.one_of({0, 0, 7, 480});
    for (size_t i = 0; i < sheet.m(); i++)
        for (size_t j = 0; j < sheet.n(); j++) sheet.cost[i][j] = factor * (orderly_cost(order, (Whole)i, (Whole)j) - less);
}

static void any_costs(Dice &dice, Sheet &sheet) {
    switch (dice.below(6)) {
    case 0: return summed_costs(dice, sheet);
    case 1: return equal_costs(dice, sheet);
    case 2: return orderly_costs(dice, sheet);
    case 3: return far_costs(dice, sheet);
    default: return random_costs(dice, sheet, dice.one_of({1, 3, 1'000, most}));
    }
}

// ---- sheets

static size_t any_size(Dice &dice) { return (size_t)dice.one_of({3, 3, 6, 12, 32}); }

Sheet filled(Dice &dice, Sheet sheet) {
    any_bags(dice, sheet);
    any_costs(dice, sheet);
    return sheet;
}

Sheet any_sheet(Dice &dice) { return filled(dice, blank_to(dice, any_size(dice))); }

Sheet small_sheet(Dice &dice) {
    Sheet sheet = blank_to(dice, 4);
    random_bags(dice, sheet, 3);
    random_costs(dice, sheet, dice.one_of({0, 1, 2, 5, most}));
    return sheet;
}

Sheet sheet_of_ties(Dice &dice) {
    Sheet sheet = blank_to(dice, 12);
    random_bags(dice, sheet, 5);
    random_costs(dice, sheet, dice.between(1, 3));
    return sheet;
}

Sheet degenerate_sheet(Dice &dice) {
    Sheet sheet = blank_to(dice, 16);
    tied_bags(dice, sheet);
    any_costs(dice, sheet);
    return sheet;
}

Sheet sheet_of_summed_costs(Dice &dice) {
    Sheet sheet = blank_to(dice, 16);
    any_bags(dice, sheet);
    if (dice.once_in(4)) equal_costs(dice, sheet);
    else summed_costs(dice, sheet);
    return sheet;
}

Sheet sheet_of_orderly_costs(Dice &dice) {
    Sheet sheet = blank_to(dice, 24);
    any_bags(dice, sheet);
    orderly_costs(dice, sheet);
    return sheet;
}

Sheet sheet_of_large_numbers(Dice &dice) {
    Sheet sheet = blank_to(dice, 24);
    random_bags(dice, sheet, most);
    random_costs(dice, sheet, most);
    return sheet;
}

Sheet narrow_sheet(Dice &dice) {
    size_t narrow = 1 + dice.below(2), wide = 1 + dice.below(full);
    Sheet sheet = dice.once_in(2) ? blank(narrow, wide) : blank(wide, narrow);
    return filled(dice, sheet);
}

// The extra café makes 31 cafés full too.
Sheet full_sheet(Dice &dice) {
    size_t n = full - dice.below(2);
    return filled(dice, blank(full, n));
}

// ---- sheets to refuse by 3, 4, 5, 10 or 11, or just not

// With a surplus 31 cafés are the most, and 32 are too many.
Sheet sheet_of_many_cafes(Dice &dice) {
    size_t m = 1 + dice.below(full), n = full - dice.below(2);
    Sheet sheet = filled(dice, blank(m, n));
    if (!dice.once_in(4)) add_surplus(dice, sheet, dice.one_of({1, 1'000, most}), 1);
    return sheet;
}

Sheet unequal_sheet(Dice &dice) {
    Sheet sheet = any_sheet(dice);
    Whole &bags = dice.one_of(dice.once_in(2) ? sheet.supply : sheet.demand);
    bags = dice.one_of({std::min(bags + 1, most), std::max<Whole>(bags - 1, 0), dice.between(0, most)});
    return sheet;
}

// No café wants a bag, or one wants a single one; roasteries have what they had, nothing, or a single bag.
Sheet sheet_of_closed_cafes(Dice &dice) {
    Sheet sheet = dice.once_in(2) ? sheet_of_many_cafes(dice) : any_sheet(dice);
    sheet.demand.assign(sheet.n(), 0);
    if (dice.once_in(3)) dice.one_of(sheet.demand) = 1;
    if (dice.once_in(2)) return sheet;
    sheet.supply.assign(sheet.m(), 0);
    if (dice.once_in(2)) dice.one_of(sheet.supply) = 1;
    return sheet;
}

static Whole at_the_limits(Dice &dice) { return dice.one_of({0, 1, most - 1, most, most + 1, seven_nines}); }

static Whole cost_at_the_limits(Dice &dice) { return dice.one_of({1, -1}) * at_the_limits(dice); }

Sheet sheet_at_the_limits(Dice &dice) {
    Sheet sheet = dice.once_in(4) ? sheet_of_many_cafes(dice) : any_sheet(dice);
    for (size_t change = 1 + dice.below(3); change > 0; change--)
        switch (dice.below(4)) {
        case 0: dice.one_of(sheet.supply) = at_the_limits(dice); break;
        case 1: dice.one_of(sheet.demand) = at_the_limits(dice); break;
        default: dice.one_of(dice.one_of(sheet.cost)) = cost_at_the_limits(dice);
        }
    return sheet;
}
