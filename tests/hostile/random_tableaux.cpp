#include "random_tableaux.h"

#include <algorithm>

// ---- tableaux that belong

static std::vector<Lane> without_basic(std::vector<Lane> lanes, const Tableau &tableau) {
    auto is_basic = [&](Lane lane) { return tableau.count(lane) > 0; };
    lanes.erase(std::remove_if(lanes.begin(), lanes.end(), is_basic), lanes.end());
    return lanes;
}

static Tableau wandered_on(Dice &dice, const Sheet &sheet, const std::vector<Lane> &lanes, Tableau tableau, size_t rounds) {
    for (; rounds > 0; rounds--) {
        std::vector<Lane> open = without_basic(lanes, tableau);
        if (open.empty()) break;
        make_round(sheet, tableau, dice.one_of(open));
    }
    return tableau;
}

Tableau wandered(Dice &dice, const Sheet &sheet, Tableau tableau, size_t rounds) { return wandered_on(dice, sheet, lanes_left(sheet), tableau, rounds); }

Tableau wandered_among_finished(Dice &dice, const Sheet &sheet, const Prices &prices, Tableau tableau, size_t rounds) {
    std::vector<Lane> tight;
    for (Lane lane : lanes_left(sheet))
        if (prices.reduced(sheet, lane) == 0) tight.push_back(lane);
    return wandered_on(dice, sheet, tight, tableau, rounds);
}

// ---- trees

static std::vector<Lane> random_spanning_lanes(Dice &dice, const Sheet &sheet) {
    std::vector<Lane> lanes = lanes_left(sheet), kept;
    for (size_t k = lanes.size(); k > 1; k--) std::swap(lanes[k - 1], lanes[dice.below(k)]);
    Parts parts(sheet);
    for (Lane lane : lanes)
        if (parts.join(lane)) kept.push_back(lane);
    return kept;
}

// The pairs that add up on lanes that join all parties without a loop. Strikes off a party with a single lane, again and again: that lane carries all that the
// party has left.
static Cells carried_on(std::vector<Lane> open, std::vector<Amount> left, std::vector<Amount> wanted) {
    Tableau tableau;
    while (!open.empty()) {
        for (size_t k = 0; k < open.size(); k++) {
            Lane lane = open[k];
            auto in_row = std::count_if(open.begin(), open.end(), [&](Lane other) { return other.first == lane.first; });
            auto in_col = std::count_if(open.begin(), open.end(), [&](Lane other) { return other.second == lane.second; });
            if (in_row > 1 && in_col > 1) continue;
            Amount put = in_row == 1 ? left[lane.first] : wanted[lane.second];
            left[lane.first] = difference(left[lane.first], put);
            wanted[lane.second] = difference(wanted[lane.second], put);
            tableau[lane] = put;
            open.erase(open.begin() + (long)k);
            break;
        }
    }
    return cells_of(tableau);
}

Cells random_tree(Dice &dice, const Sheet &sheet) {
    return carried_on(random_spanning_lanes(dice, sheet), paired_supplies(sheet), paired_demands(sheet));
}

// ---- counts

static bool is_before(const Cell &one, const Cell &other) { return Lane{one.row, one.col} < Lane{other.row, other.col}; }

static Cell any_cell(Dice &dice, const Sheet &sheet) { return {dice.below(sheet.m()), dice.below(sheet.n()), {dice.between(0, 3), dice.between(-1, 3)}}; }

// With one cell again and again, with cells by chance, or with cells that go on in order.
static void lengthen(Dice &dice, const Sheet &sheet, Cells &cells, size_t count) {
    if (cells.empty()) cells.push_back(any_cell(dice, sheet));
    Cell again = dice.one_of(std::initializer_list<Cell>{{0, 0, {0, 0}}, cells.back(), cells.front(), any_cell(dice, sheet)});
    size_t way = dice.below(3);
    while (cells.size() < count) {
        Cell next = {cells.back().row, cells.back().col + 1, {1, 0}};
        cells.push_back(way == 0 ? again : way == 1 ? any_cell(dice, sheet) : next);
    }
    cells.resize(count);
}

static size_t long_count(Dice &dice, size_t had) {
    if (dice.once_in(20)) return (size_t)dice.one_of({(Whole)had + 65'536, 100'000});
    return (size_t)dice.one_of({(Whole)had + 1, (Whole)had + 2, (Whole)had + 64, (Whole)had + 256, 1'000, 4'096});
}

void change_count(Dice &dice, const Sheet &sheet, Cells &cells) {
    switch (dice.below(8)) {
    case 0: return cells.clear();
    case 1: return cells.resize(1);
    case 2: return cells.pop_back();
    case 3: cells.erase(cells.begin() + (long)dice.below(cells.size())); return;
    case 4: return lengthen(dice, sheet, cells, long_count(dice, cells.size()));
    case 5: cells.insert(cells.begin() + (long)dice.below(cells.size()), any_cell(dice, sheet)); return;
    case 6: cells.push_back(any_cell(dice, sheet)); return std::sort(cells.begin(), cells.end(), is_before);
    default: return lengthen(dice, sheet, cells, 62 + dice.below(4));
    }
}

// ---- places

// Off the sheet, and many at the place of the cell, or of another, for a careless count of places.
static Lane off_sheet(Dice &dice, const Sheet &sheet, size_t row, size_t col) {
    const size_t m = sheet.m(), n = sheet.n(), width = dice.one_of({n, size_t{32}}), far = SIZE_MAX;
    return dice.one_of(std::initializer_list<Lane>{
        {m, col}, {row, n}, {m, 0}, {m - 1, n}, {far, col}, {row, far}, {far, far}, {far / 2, far / 2},
        {row + m, col}, {row, col + n}, {row + 32, col}, {row, col + 32}, {row + 64, col}, {row, col + 64}, {row + 256, col}, {row, col + 256},
        {row - std::min<size_t>(row, 1), col + width}, {row + 1, col - width}, {row + (far / width + 1), col}, {row + (size_t{1} << 32), col},
        {row, col + (size_t{1} << 32)}, {row + (size_t{1} << 63), col}, {row, col + (size_t{1} << 63)}, {col, row}, {row - 1, col}, {row, col - 1}});
}

void put_off_sheet(Dice &dice, const Sheet &sheet, Cells &cells) {
    for (size_t changes = dice.once_in(3) ? 2 : 1; changes > 0; changes--) {
        Cell &cell = dice.once_in(3) ? cells.back() : dice.one_of(cells);
        Lane lane = off_sheet(dice, sheet, cell.row, cell.col);
        cell.row = lane.first;
        cell.col = lane.second;
    }
    if (dice.once_in(2)) std::sort(cells.begin(), cells.end(), is_before);
}

void change_order(Dice &dice, const Sheet &, Cells &cells) {
    size_t k = dice.below(cells.size()), other = dice.below(cells.size());
    switch (dice.below(7)) {
    case 0: return std::swap(cells[k], cells[other]);
    case 1: return std::swap(cells[k], cells[std::min(k + 1, cells.size() - 1)]);
    case 2: return std::reverse(cells.begin(), cells.end());
    case 3: std::rotate(cells.begin(), cells.begin() + (long)k, cells.end()); return;
    case 4: std::sort(cells.begin(), cells.end(), [](const Cell &a, const Cell &b) { return Lane{a.col, a.row} < Lane{b.col, b.row}; }); return;
    case 5: cells[k] = cells[other]; return;
    default:
        cells[k].row = cells[other].row;
        cells[k].col = cells[other].col;
    }
}

// ---- the last column, which is the extra café's if there is a surplus

static void drop_last_column(const Sheet &sheet, Cells &cells) {
    auto is_last = [&](const Cell &cell) { return cell.col + 1 == sheet.n(); };
    cells.erase(std::remove_if(cells.begin(), cells.end(), is_last), cells.end());
}

// The start if the roasteries had only what they send to the other cafés.
static void start_without_last_column(const Sheet &sheet, Cells &cells) {
    Sheet other = {sheet.supply, List(sheet.demand.begin(), sheet.demand.end() - 1), {}};
    for (const Cell &cell : cells)
        if (cell.col + 1 == sheet.n()) other.supply[cell.row] -= cell.amount.first;
    if (total(other.demand) > 0) cells = cells_of(start(other));
}

// The number of the last of those left.
static size_t last_left(const List &amounts) {
    size_t last = amounts.size() - 1;
    while (amounts[last] == 0) last--;
    return last;
}

// The start if one café more took a part of what the last one left takes, or only the marks.
static void start_with_one_column_more(Dice &dice, const Sheet &sheet, Cells &cells) {
    std::vector<Amount> wanted = paired_demands(sheet);
    Amount &last = wanted[last_left(sheet.demand)];
    Amount taken = {dice.once_in(2) ? 0 : dice.between(0, last.first - 1), last.second};
    last = difference(last, taken);
    wanted.push_back(taken);
    cells = cells_of(north_west(paired_supplies(sheet), wanted));
}

// The pairs if the marks were another café's.
static void give_marks_to_other(Dice &dice, const Sheet &sheet, Cells &cells) {
    std::vector<Lane> lanes;
    for (const Cell &cell : cells) lanes.push_back({cell.row, cell.col});
    std::vector<Amount> wanted = paired_demands(sheet);
    std::swap(wanted[last_left(sheet.demand)].second, wanted[sheet.n() - 1 - std::min<size_t>(1 + dice.below(2), sheet.n() - 1)].second);
    cells = carried_on(lanes, paired_supplies(sheet), wanted);
}

static void put_last_column_first(const Sheet &sheet, Cells &cells) {
    for (Cell &cell : cells) cell.col = (cell.col + 1) % sheet.n();
    std::sort(cells.begin(), cells.end(), is_before);
}

static void put_last_column_at(const Sheet &sheet, Cells &cells, size_t col) {
    for (Cell &cell : cells)
        if (cell.col + 1 == sheet.n()) cell.col = col;
}

void change_last_column(Dice &dice, const Sheet &sheet, Cells &cells) {
    switch (dice.below(6)) {
    case 0: return drop_last_column(sheet, cells);
    case 1: return start_without_last_column(sheet, cells);
    case 2: return start_with_one_column_more(dice, sheet, cells);
    case 3: return give_marks_to_other(dice, sheet, cells);
    case 4: return put_last_column_first(sheet, cells);
    default: return put_last_column_at(sheet, cells, dice.one_of<size_t>({sheet.n(), 31, 32, 63, 64}));
    }
}

// ---- parties

// The numbers of those left, or of those struck.
static std::vector<size_t> numbers_of(const List &amounts, bool left) {
    std::vector<size_t> numbers;
    for (size_t k = 0; k < amounts.size(); k++)
        if ((amounts[k] > 0) == left) numbers.push_back(k);
    return numbers;
}

// The number of a party of the side: of a struck one if there is any.
static size_t any_struck(Dice &dice, const List &amounts) {
    std::vector<size_t> struck = numbers_of(amounts, false);
    return struck.empty() ? dice.below(amounts.size()) : dice.one_of(struck);
}

// One cell, or all cells of its party.
static void move_to_struck(Dice &dice, const Sheet &sheet, Cells &cells, bool all) {
    Cell from = dice.one_of(cells);
    bool row = dice.once_in(2);
    size_t to = any_struck(dice, row ? sheet.supply : sheet.demand);
    for (Cell &cell : cells) {
        bool moves = all ? (row ? cell.row == from.row : cell.col == from.col) : cell.row == from.row && cell.col == from.col;
        if (moves) (row ? cell.row : cell.col) = to;
    }
    std::sort(cells.begin(), cells.end(), is_before);
}

// The numbers that the parties left have among themselves, on one side or on both.
static void number_among_left(Dice &dice, const Sheet &sheet, Cells &cells) {
    auto number = [](const List &amounts, size_t own) {
        std::vector<size_t> left = numbers_of(amounts, true);
        return (size_t)(std::lower_bound(left.begin(), left.end(), own) - left.begin());
    };
    size_t sides = dice.below(3);
    for (Cell &cell : cells) {
        if (sides != 0) cell.row = number(sheet.supply, cell.row);
        if (sides != 1) cell.col = number(sheet.demand, cell.col);
    }
}

// A cell for each struck party, so that there are as many cells as if none were struck; or for some.
static void add_cells_of_struck(Dice &dice, const Sheet &sheet, Cells &cells) {
    bool all = !dice.once_in(3);
    Amount amount = dice.one_of({nothing, Amount{0, 1}});
    for (size_t row : numbers_of(sheet.supply, false))
        if (all || dice.once_in(2)) cells.push_back({row, dice.once_in(2) ? last_left(sheet.demand) : dice.below(sheet.n()), amount});
    for (size_t col : numbers_of(sheet.demand, false))
        if (all || dice.once_in(2)) cells.push_back({dice.once_in(2) ? last_left(sheet.supply) : dice.below(sheet.m()), col, amount});
    std::sort(cells.begin(), cells.end(), is_before);
}

// The start if struck roasteries had a mark too, and the last café left, or the last one, as many more.
static void start_with_all_marks(Dice &dice, const Sheet &sheet, Cells &cells) {
    std::vector<Amount> left = paired_supplies(sheet), wanted = paired_demands(sheet);
    for (Amount &supply : left) supply.second = 1;
    Amount &last = wanted[last_left(sheet.demand)];
    last.second = (Whole)sheet.m();
    if (dice.once_in(2)) std::swap(last.second, wanted.back().second);
    cells = cells_of(north_west(left, wanted));
}

// The marks of struck roasteries on a cell of the last café left.
static void count_all_marks(const Sheet &sheet, Cells &cells) {
    for (Cell &cell : cells) {
        if (cell.col != last_left(sheet.demand)) continue;
        cell.amount.second += (Whole)numbers_of(sheet.supply, false).size();
        return;
    }
}

// The start if the last café had the marks, be it struck or not.
static void give_marks_to_last(const Sheet &sheet, Cells &cells) {
    std::vector<Amount> wanted = paired_demands(sheet);
    std::swap(wanted[last_left(sheet.demand)].second, wanted.back().second);
    cells = cells_of(north_west(paired_supplies(sheet), wanted));
}

static void drop_party(Dice &dice, Cells &cells) {
    Cell of = dice.one_of(cells);
    bool row = dice.once_in(2);
    auto is_dropped = [&](const Cell &cell) { return row ? cell.row == of.row : cell.col == of.col; };
    cells.erase(std::remove_if(cells.begin(), cells.end(), is_dropped), cells.end());
}

// The start if a struck party had bags, and one left so many fewer.
static void start_of_other_left(Dice &dice, const Sheet &sheet, Cells &cells) {
    Sheet other = sheet;
    List &list = dice.once_in(2) ? other.supply : other.demand;
    Whole &from = list[last_left(list)], bags = dice.between(1, from);
    from -= bags;
    list[any_struck(dice, list)] += bags;
    cells = cells_of(start(other));
}

void change_parties(Dice &dice, const Sheet &sheet, Cells &cells) {
    switch (dice.below(9)) {
    case 0: return move_to_struck(dice, sheet, cells, false);
    case 1: return move_to_struck(dice, sheet, cells, true);
    case 2: return number_among_left(dice, sheet, cells);
    case 3: return add_cells_of_struck(dice, sheet, cells);
    case 4: return start_with_all_marks(dice, sheet, cells);
    case 5: return count_all_marks(sheet, cells);
    case 6: return give_marks_to_last(sheet, cells);
    case 7: return drop_party(dice, cells);
    default: return start_of_other_left(dice, sheet, cells);
    }
}

// ---- amounts

static Whole wrapped_sum(Whole one, uint64_t other) { return (Whole)((uint64_t)one + other); }

static uint64_t far_step(Dice &dice) { return dice.one_of<uint64_t>({uint64_t{1} << 63, uint64_t{1} << 62, uint64_t{1} << 32, INT64_MAX, dice.any()}); }

static Whole odd_part(Dice &dice, Whole part) {
    return dice.one_of({INT64_MIN, INT64_MIN + 1, INT64_MAX, INT64_MAX - 1, 0, 1, -1, wrapped_sum(0, -(uint64_t)part), wrapped_sum(part, 1),
                        wrapped_sum(part, -1), wrapped_sum(part, far_step(dice)), (Whole)dice.any()});
}

// Adds to cells what others lose, so that a total may stay, modulo 2^64.
static void shift_far(Dice &dice, Cells &cells) {
    bool bags = dice.once_in(2);
    auto add = [&](uint64_t step) {
        Amount &amount = dice.one_of(cells).amount;
        (bags ? amount.first : amount.second) = wrapped_sum(bags ? amount.first : amount.second, step);
    };
    uint64_t step = far_step(dice);
    add(step);
    if (dice.once_in(2)) add(step);
    else add(-step);
    if (dice.once_in(2)) add(-2 * step);
}

void change_amounts(Dice &dice, const Sheet &, Cells &cells) {
    Amount &amount = dice.one_of(cells).amount;
    switch (dice.below(6)) {
    case 0: amount.first = odd_part(dice, amount.first); return;
    case 1: amount.second = odd_part(dice, amount.second); return;
    case 2: amount = {odd_part(dice, amount.first), odd_part(dice, amount.second)}; return;
    case 3: amount = {dice.between(-1, 1), dice.between(-1, 1)}; return;
    case 4: return shift_far(dice, cells);
    default:
        for (Cell &cell : cells) cell.amount = {odd_part(dice, cell.amount.first), odd_part(dice, cell.amount.second)};
    }
}

// ---- pairs that add up

// Between two cells of a row or of a column. One of the two sums stays.
static void shift_in_line(Dice &dice, Cells &cells) {
    Cell &one = dice.one_of(cells);
    for (Cell &other : cells) {
        if (&one == &other || (one.row != other.row && one.col != other.col)) continue;
        Amount step = {dice.between(0, 1), dice.between(-1, 1)};
        one.amount = sum(one.amount, step);
        other.amount = difference(other.amount, step);
        return;
    }
}

// A round in which another cell leaves than the smallest on a minus cell, or none: all adds up, but a pair is not above (0, 0) or there is a cell too many.
static void enter_badly(Dice &dice, const Sheet &sheet, Cells &cells) {
    Tableau before = tableau_of(cells), after = before;
    std::vector<Lane> open = without_basic(lanes_left(sheet), before);
    if (open.empty()) return;
    Lane entering = dice.one_of(open);
    Amount step = make_round(sheet, after, entering);
    Amount taken = dice.one_of(std::initializer_list<Amount>{{0, 1}, {0, 2}, {1, 0}, step, {step.first, step.second - 1}, {step.first + 1, 0}});
    // Each cell of the loop changed by the step, to one side or the other.
    for (Cell &cell : cells) {
        auto found = after.find({cell.row, cell.col});
        Amount now = found == after.end() ? Amount{0, 0} : found->second;
        if (now == cell.amount) continue;
        cell.amount = now > cell.amount ? sum(cell.amount, taken) : difference(cell.amount, taken);
    }
    cells.push_back({entering.first, entering.second, taken});
    std::sort(cells.begin(), cells.end(), is_before);
    auto is_nothing = [](const Cell &cell) { return cell.amount == Amount{0, 0}; };
    if (dice.once_in(2)) cells.erase(std::remove_if(cells.begin(), cells.end(), is_nothing), cells.end());
}

// One cell as two, which together hold its pair.
static void split_cell(Dice &dice, Cells &cells) {
    size_t k = dice.below(cells.size());
    Cell part = cells[k];
    part.amount = {dice.between(0, part.amount.first), dice.between(0, 1)};
    cells[k].amount = difference(cells[k].amount, part.amount);
    cells.insert(cells.begin() + (long)k, part);
    if (dice.once_in(2)) cells.erase(cells.begin() + (long)dice.below(cells.size()));
}

// The tableau of a sheet with other bags.
static void take_other_sheet(Dice &dice, const Sheet &sheet, Cells &cells) {
    Sheet other = sheet;
    Whole bags = dice.between(1, 2);
    dice.one_of(other.supply) += bags;
    dice.one_of(other.demand) += bags;
    cells = cells_of(start(other));
}

void shift_pairs(Dice &dice, const Sheet &sheet, Cells &cells) {
    switch (dice.below(7)) {
    case 0: return shift_in_line(dice, cells);
    case 1: return split_cell(dice, cells);
    case 2: return take_other_sheet(dice, sheet, cells);
    case 3:
        for (Cell &cell : cells) cell.amount.second = 0;
        return;
    case 4:
        for (Cell &cell : cells) cell.amount.second = -cell.amount.second;
        return;
    default: return enter_badly(dice, sheet, cells);
    }
}

void put_noise(Dice &dice, const Sheet &sheet, Cells &cells) {
    cells.resize(dice.once_in(2) ? cells.size() : dice.below(70));
    for (Cell &cell : cells) {
        cell = any_cell(dice, sheet);
        if (dice.once_in(8)) cell.row = dice.any();
        if (dice.once_in(8)) cell.col = dice.any() >> dice.below(64);
        if (dice.once_in(4)) cell.amount = {(Whole)dice.any(), (Whole)dice.any()};
    }
    if (dice.once_in(2)) std::sort(cells.begin(), cells.end(), is_before);
}
