#include "reference.h"

#include <algorithm>
#include <functional>
#include <numeric>
#include <optional>
#include <sstream>

static const Whole most = 1'000'000, most_price = 63'000'000;
static const size_t most_parties = 32, most_digits = 7;

static void claim(bool holds, const char *what) {
    if (!holds) throw Broken(what);
}

Whole total(const List &list) {
    Whole sum = 0;
    for (Whole number : list) sum += number;
    return sum;
}

Whole surplus(const Sheet &sheet) { return total(sheet.supply) - total(sheet.demand); }

Sheet extended(const Sheet &sheet) {
    if (surplus(sheet) == 0) return sheet;
    Sheet with_extra = sheet;
    with_extra.demand.push_back(surplus(sheet));
    for (List &row : with_extra.cost) row.push_back(0);
    return with_extra;
}

static bool is_left(Whole amount) { return amount > 0; }

bool has_struck(const Sheet &sheet) {
    return !std::all_of(sheet.supply.begin(), sheet.supply.end(), is_left) || !std::all_of(sheet.demand.begin(), sheet.demand.end(), is_left);
}

static size_t count_left(const List &amounts) { return (size_t)std::count_if(amounts.begin(), amounts.end(), is_left); }

static size_t parties_left(const Sheet &sheet) { return count_left(sheet.supply) + count_left(sheet.demand); }

static bool joins_parties_left(const Sheet &sheet, Lane lane) { return is_left(sheet.supply[lane.first]) && is_left(sheet.demand[lane.second]); }

std::vector<Lane> lanes_left(const Sheet &sheet) {
    std::vector<Lane> lanes;
    for (size_t i = 0; i < sheet.m(); i++)
        for (size_t j = 0; j < sheet.n(); j++)
            if (joins_parties_left(sheet, {i, j})) lanes.push_back({i, j});
    return lanes;
}

Lists lists_of(const Sheet &sheet) {
    Lists lists = {Numbers(sheet.supply.begin(), sheet.supply.end()), Numbers(sheet.demand.begin(), sheet.demand.end()), {}};
    for (const List &row : sheet.cost) lists.cost.insert(lists.cost.end(), row.begin(), row.end());
    return lists;
}

Sheet sheet_of(const Lists &lists) {
    Sheet sheet = {List(lists.supply.begin(), lists.supply.end()), List(lists.demand.begin(), lists.demand.end()), {}};
    for (auto lane = lists.cost.begin(); lane != lists.cost.end(); lane += (long)sheet.n()) sheet.cost.emplace_back(lane, lane + (long)sheet.n());
    return sheet;
}

// ---- refusals

template <class Number> static bool any_outside(const std::vector<Number> &list, Number low, Number high) {
    return std::any_of(list.begin(), list.end(), [&](Number number) { return number < low || number > high; });
}

static int refusal_of_numbers(const Lists &lists) {
    if (any_outside<uint64_t>(lists.supply, 0, most) || any_outside<uint64_t>(lists.demand, 0, most)) return 3;
    if (any_outside(lists.cost, -most, most)) return 4;
    auto sum = [](const Numbers &list) { return std::accumulate(list.begin(), list.end(), uint64_t{0}); };
    if (sum(lists.supply) < sum(lists.demand)) return 5;
    if (sum(lists.supply) > sum(lists.demand) && lists.demand.size() == most_parties) return 10;
    if (sum(lists.demand) == 0) return 11;
    return no_refusal;
}

int refusal_of(const Lists &lists) {
    size_t m = lists.supply.size(), n = lists.demand.size();
    if (m < 1 || m > most_parties || n < 1 || n > most_parties) return 1;
    if (lists.cost.size() != m * n) return 2;
    return refusal_of_numbers(lists);
}

// ---- reading: an automaton that says for each byte whether it may follow on those before

namespace {

class Automaton {
    Grid sections[3];
    size_t begun = 0;     // sections whose first line is complete
    size_t rows_left = 0; // lines that the section at hand still lacks
    std::string line;     // what stands of the line at hand

    size_t width() const { return begun == 3 ? sections[1].size() : 1; }
    std::vector<std::string> first_lines() const;
    bool may_follow_in_first_line(char byte) const;
    bool may_follow_in_row(char byte) const;
    void end_line();

public:
    bool at_end() const { return begun == 3 && rows_left == 0; }
    bool may_follow(char byte) const { return rows_left == 0 ? may_follow_in_first_line(byte) : may_follow_in_row(byte); }
    void take(char byte);
    Sheet sheet() const;
};

// All lines with which the next section may begin.
std::vector<std::string> Automaton::first_lines() const {
    if (begun == 3) return {};
    if (begun == 2) return {"cost " + std::to_string(sections[0].size()) + "\n"};
    std::vector<std::string> lines;
    for (size_t count = 1; count <= most_parties; count++) lines.push_back((begun == 0 ? "supply " : "demand ") + std::to_string(count) + "\n");
    return lines;
}

bool Automaton::may_follow_in_first_line(char byte) const {
    std::string longer = line + byte;
    for (const std::string &whole : first_lines())
        if (whole.compare(0, longer.size(), longer) == 0) return true;
    return false;
}

bool Automaton::may_follow_in_row(char byte) const {
    size_t numbers = 1 + (size_t)std::count(line.begin(), line.end(), ' ');
    std::string number = line.substr(line.rfind(' ') + 1);
    bool is_digit = '0' <= byte && byte <= '9', is_cost = begun == 3;
    if (number.empty()) return is_digit || (is_cost && byte == '-');
    if (number == "-") return is_digit && byte != '0';
    if (byte == ' ') return numbers < width();
    if (byte == '\n') return numbers == width();
    size_t digits = number[0] == '-' ? number.size() - 1 : number.size();
    return is_digit && number != "0" && digits < most_digits;
}

void Automaton::take(char byte) {
    if (byte == '\n') end_line();
    else line += byte;
}

void Automaton::end_line() {
    if (rows_left == 0) {
        rows_left = std::stoul(line.substr(line.find(' ')));
        begun++;
    } else {
        std::istringstream words(line);
        List row;
        for (Whole number; words >> number;) row.push_back(number);
        sections[begun - 1].push_back(row);
        rows_left--;
    }
    line.clear();
}

Sheet Automaton::sheet() const {
    Sheet sheet;
    for (const List &row : sections[0]) sheet.supply.push_back(row[0]);
    for (const List &row : sections[1]) sheet.demand.push_back(row[0]);
    sheet.cost = sections[2];
    return sheet;
}

} // namespace

Reading read_sheet(const std::string &text) {
    Automaton automaton;
    size_t place = 0;
    while (place < text.size() && automaton.may_follow(text[place])) automaton.take(text[place++]);
    if (place < text.size() || !automaton.at_end()) return {9, place, {}};
    Sheet sheet = automaton.sheet();
    return {refusal_of_numbers(lists_of(sheet)), 0, sheet};
}

std::string sheet_text(const Sheet &sheet) {
    std::ostringstream text;
    text << "supply " << sheet.m() << "\n";
    for (Whole bags : sheet.supply) text << bags << "\n";
    text << "demand " << sheet.n() << "\n";
    for (Whole bags : sheet.demand) text << bags << "\n";
    text << "cost " << sheet.cost.size() << "\n";
    for (const List &row : sheet.cost)
        for (size_t j = 0; j < row.size(); j++) text << row[j] << (j + 1 < row.size() ? " " : "\n");
    return text.str();
}

// ---- rounds

Amount sum(Amount a, Amount b) { return {a.first + b.first, a.second + b.second}; }
Amount difference(Amount a, Amount b) { return {a.first - b.first, a.second - b.second}; }

std::vector<Amount> paired_supplies(const Sheet &sheet) {
    std::vector<Amount> paired;
    for (Whole bags : sheet.supply) paired.push_back(is_left(bags) ? Amount{bags, 1} : nothing);
    return paired;
}

std::vector<Amount> paired_demands(const Sheet &sheet) {
    std::vector<Amount> paired;
    for (Whole bags : sheet.demand) paired.push_back({bags, 0});
    auto last = std::find_if(paired.rbegin(), paired.rend(), [](Amount amount) { return is_left(amount.first); });
    last->second = (Whole)count_left(sheet.supply);
    return paired;
}

Cells cells_of(const Tableau &tableau) {
    Cells cells;
    for (const auto &[lane, amount] : tableau) cells.push_back({lane.first, lane.second, amount});
    return cells;
}

Tableau tableau_of(const Cells &cells) {
    Tableau tableau;
    for (const Cell &cell : cells) tableau[{cell.row, cell.col}] = cell.amount;
    return tableau;
}

static bool are_in_sheet_order(const Cells &cells) {
    for (size_t k = 1; k < cells.size(); k++)
        if (!(Lane{cells[k - 1].row, cells[k - 1].col} < Lane{cells[k].row, cells[k].col})) return false;
    return true;
}

// In numbers so long that no sum of cells passes them.
static bool add_up(const Sheet &sheet, const Cells &cells) {
    using Long = __int128;
    std::vector<std::pair<Long, Long>> left, wanted;
    for (Amount supply : paired_supplies(sheet)) left.push_back(supply);
    for (Amount demand : paired_demands(sheet)) wanted.push_back(demand);
    for (const Cell &cell : cells)
        for (auto *party : {&left[cell.row], &wanted[cell.col]}) {
            party->first -= cell.amount.first;
            party->second -= cell.amount.second;
        }
    auto is_nothing = [](const std::pair<Long, Long> &rest) { return rest.first == 0 && rest.second == 0; };
    return std::all_of(left.begin(), left.end(), is_nothing) && std::all_of(wanted.begin(), wanted.end(), is_nothing);
}

Parts::Parts(const Sheet &sheet) : m(sheet.m()), part(sheet.m() + sheet.n()) { std::iota(part.begin(), part.end(), 0); }

bool Parts::join(Lane lane) {
    size_t one = part[lane.first], other = part[m + lane.second];
    std::replace(part.begin(), part.end(), other, one);
    return one != other;
}

// A cell whose ends are in one part closes a loop. Each other leaves a part fewer, so that one cell fewer than parties left leaves these in one.
static bool join_all_without_loop(const Sheet &sheet, const Cells &cells) {
    Parts parts(sheet);
    for (const Cell &cell : cells)
        if (!parts.join({cell.row, cell.col})) return false;
    return cells.size() + 1 == parties_left(sheet);
}

bool belongs(const Sheet &sheet, const Cells &cells) {
    auto is_covered = [&](const Cell &cell) { return cell.row < sheet.m() && cell.col < sheet.n() && joins_parties_left(sheet, {cell.row, cell.col}); };
    auto is_above_nothing = [](const Cell &cell) { return cell.amount > nothing; };
    if (cells.size() + 1 != parties_left(sheet) || !are_in_sheet_order(cells)) return false;
    if (!std::all_of(cells.begin(), cells.end(), is_covered) || !std::all_of(cells.begin(), cells.end(), is_above_nothing)) return false;
    return add_up(sheet, cells) && join_all_without_loop(sheet, cells);
}

Tableau north_west(std::vector<Amount> left, std::vector<Amount> wanted) {
    Tableau tableau;
    for (size_t i = 0, j = 0; i < left.size() && j < wanted.size();) {
        if (left[i] == nothing) {
            i++;
        } else if (wanted[j] == nothing) {
            j++;
        } else {
            Amount put = std::min(left[i], wanted[j]);
            tableau[{i, j}] = put;
            left[i] = difference(left[i], put);
            wanted[j] = difference(wanted[j], put);
        }
    }
    return tableau;
}

Tableau start(const Sheet &sheet) {
    Tableau tableau = north_west(paired_supplies(sheet), paired_demands(sheet));
    claim(tableau.size() + 1 == parties_left(sheet), "both are empty together at the last cell only");
    return tableau;
}

using PricesSoFar = std::vector<std::optional<Whole>>;

// A struck café's price is the least cost - u over the roasteries left; then a struck roastery's is the least cost - v over all cafés.
static void add_prices_of_struck(const Sheet &sheet, PricesSoFar &u, PricesSoFar &v) {
    auto lower = [](std::optional<Whole> &price, Whole other) { price = std::min(price.value_or(other), other); };
    for (size_t j = 0; j < sheet.n(); j++)
        for (size_t i = 0; !is_left(sheet.demand[j]) && i < sheet.m(); i++)
            if (is_left(sheet.supply[i])) lower(v[j], sheet.cost[i][j] - *u[i]);
    for (size_t i = 0; i < sheet.m(); i++)
        for (size_t j = 0; !is_left(sheet.supply[i]) && j < sheet.n(); j++) lower(u[i], sheet.cost[i][j] - *v[j]);
}

// Goes over the basic cells again and again, until the prices of all parties left are known.
Prices prices(const Sheet &sheet, const Tableau &tableau) {
    PricesSoFar u(sheet.m()), v(sheet.n());
    u[(size_t)(std::find_if(sheet.supply.begin(), sheet.supply.end(), is_left) - sheet.supply.begin())] = 0;
    for (size_t known = 1, before = 0; known < parties_left(sheet);) {
        claim(known > before, "the basic cells join all parties left");
        before = known;
        for (const auto &cell : tableau) {
            auto [i, j] = cell.first;
            if (u[i].has_value() == v[j].has_value()) continue;
            if (u[i]) v[j] = sheet.cost[i][j] - *u[i];
            else u[i] = sheet.cost[i][j] - *v[j];
            known++;
        }
    }
    add_prices_of_struck(sheet, u, v);
    Prices found;
    for (auto price : u) found.u.push_back(*price);
    for (auto price : v) found.v.push_back(*price);
    auto is_within = [](Whole price) { return -most_price <= price && price <= most_price; };
    claim(std::all_of(found.u.begin(), found.u.end(), is_within), "no price passes 63,000,000");
    claim(std::all_of(found.v.begin(), found.v.end(), is_within), "no price passes 63,000,000");
    return found;
}

Lane least_lane(const Sheet &sheet, const Prices &prices) {
    std::vector<Lane> lanes = lanes_left(sheet);
    return *std::min_element(lanes.begin(), lanes.end(), [&](Lane one, Lane other) { return prices.reduced(sheet, one) < prices.reduced(sheet, other); });
}

using Test = std::function<bool(Lane)>;

// The lanes of a shortest way from a lane's café to its roastery. It goes from a café to a roastery by a lane that may lose bags, and
// from a roastery to a café by one that may gain some. Empty if there is no way.
static std::vector<Lane> way_back(const Sheet &sheet, Lane lane, const Test &may_lose, const Test &may_gain) {
    const size_t m = sheet.m(), n = sheet.n(), from = m + lane.second, to = lane.first, unseen = m + n;
    // Nodes are the roasteries and then the cafés.
    std::vector<size_t> came_from(m + n, unseen);
    std::deque<size_t> waiting = {from};
    came_from[from] = from;
    auto visit = [&](size_t node, size_t next) {
        if (came_from[next] != unseen) return;
        came_from[next] = node;
        waiting.push_back(next);
    };
    while (!waiting.empty() && came_from[to] == unseen) {
        size_t node = waiting.front();
        waiting.pop_front();
        for (size_t i = 0; node >= m && i < m; i++)
            if (may_lose({i, node - m})) visit(node, i);
        for (size_t j = 0; node < m && j < n; j++)
            if (may_gain({node, j})) visit(node, m + j);
    }
    std::vector<Lane> way;
    if (came_from[to] == unseen) return way;
    for (size_t node = to; node != from; node = came_from[node]) {
        size_t other = came_from[node];
        way.push_back({std::min(node, other), std::max(node, other) - m});
    }
    return way;
}

// The way has minus and plus cells in turn, and begins and ends with minus.
Amount make_round(const Sheet &sheet, Tableau &tableau, Lane entering) {
    Test is_basic = [&](Lane lane) { return tableau.count(lane) > 0; };
    std::vector<Lane> way = way_back(sheet, entering, is_basic, is_basic);
    claim(way.size() % 2 == 1, "the entering lane closes a loop");
    Lane leaving = way[0];
    for (size_t k = 2; k < way.size(); k += 2)
        if (tableau[way[k]] < tableau[leaving]) leaving = way[k];
    Amount step = tableau[leaving];
    for (size_t k = 0; k < way.size(); k++) tableau[way[k]] = k % 2 == 0 ? difference(tableau[way[k]], step) : sum(tableau[way[k]], step);
    tableau.erase(leaving);
    tableau[entering] = step;
    for (const auto &cell : tableau) claim(cell.second > nothing, "two minus cells never tie for the step");
    return step;
}

Path::Path(const Sheet &sheet, const Tableau &first) : sheet(sheet) { add(first); }

void Path::add(const Tableau &tableau) {
    Prices found = ::prices(sheet, tableau);
    Lane least = least_lane(sheet, found);
    stops.push_back({stops.size(), tableau, found, least, found.reduced(sheet, least) >= 0});
}

const Path::Stop &Path::after(uint64_t rounds) {
    while (stops.size() <= rounds && !stops.back().finished) {
        Tableau tableau = stops.back().tableau;
        make_round(sheet, tableau, stops.back().least);
        add(tableau);
    }
    return stops[std::min<uint64_t>(rounds, stops.size() - 1)];
}

// ---- plans

static Grid bags_of(const Sheet &sheet, const Tableau &tableau) {
    Grid bags(sheet.m(), List(sheet.n(), 0));
    for (const auto &[lane, amount] : tableau) bags[lane.first][lane.second] = amount.first;
    return bags;
}

// Brings as many bags to the lane as tight lanes after it can give, and leaves the lanes before it alone. The lane of the extra café stands at the end of its
// row; in the rows before, where all else stays, it stays too.
static void fill(const Sheet &sheet, const Prices &prices, Grid &bags, Lane lane) {
    Test may_lose = [&](Lane other) { return other > lane && bags[other.first][other.second] > 0; };
    Test may_gain = [&](Lane other) { return other > lane && prices.reduced(sheet, other) == 0; };
    while (true) {
        std::vector<Lane> way = way_back(sheet, lane, may_lose, may_gain);
        if (way.empty()) return;
        Whole step = bags[way[0].first][way[0].second];
        for (size_t k = 2; k < way.size(); k += 2) step = std::min(step, bags[way[k].first][way[k].second]);
        for (size_t k = 0; k < way.size(); k++) bags[way[k].first][way[k].second] += k % 2 == 0 ? -step : step;
        bags[lane.first][lane.second] += step;
    }
}

// The lanes of the extra café only give and take, and are dropped at the end. Those of struck parties carry nothing.
Grid settled_plan(const Sheet &sheet, const Prices &prices, const Tableau &tableau) {
    Sheet extended = ::extended(sheet);
    Grid bags = bags_of(extended, tableau);
    for (Lane lane : lanes_left(sheet))
        if (prices.reduced(extended, lane) == 0) fill(extended, prices, bags, lane);
    for (List &row : bags) row.resize(sheet.n());
    return bags;
}

Whole cost_of(const Sheet &sheet, const Grid &plan) {
    Whole cost = 0;
    for (size_t i = 0; i < sheet.m(); i++)
        for (size_t j = 0; j < sheet.n(); j++) cost += plan[i][j] * sheet.cost[i][j];
    return cost;
}

// Takes the plans in order, more on an earlier lane first, and keeps the first of least cost. A roastery may keep what is left of the surplus.
Grid search(const Sheet &sheet) {
    const size_t m = sheet.m(), n = sheet.n();
    Grid plan(m, List(n, 0)), best;
    List left = sheet.supply, wanted = sheet.demand;
    Whole spare = surplus(sheet);
    std::function<void(size_t)> choose = [&](size_t k) {
        if (k == m * n) {
            if (best.empty() || cost_of(sheet, plan) < cost_of(sheet, best)) best = plan;
            return;
        }
        size_t i = k / n, j = k % n;
        Whole &lane = plan[i][j];
        for (lane = std::min(left[i], wanted[j]); lane >= 0; lane--) {
            if ((j + 1 == n && lane < left[i] - spare) || (i + 1 == m && lane < wanted[j])) break;
            left[i] -= lane;
            wanted[j] -= lane;
            Whole kept = j + 1 == n ? left[i] : 0;
            spare -= kept;
            choose(k + 1);
            spare += kept;
            left[i] += lane;
            wanted[j] += lane;
        }
    };
    choose(0);
    return best;
}

bool has_few_plans(const Sheet &sheet) { return sheet.m() * sheet.n() <= 16 && (total(sheet.supply) <= 12 || total(sheet.demand) <= 8); }

static void claim_meets(const Sheet &sheet, const Grid &plan) {
    for (size_t i = 0; i < sheet.m(); i++) claim(total(plan[i]) <= sheet.supply[i], "a plan sends at most each supply");
    for (size_t j = 0; j < sheet.n(); j++) {
        Whole bags = 0;
        for (const List &row : plan) bags += row[j];
        claim(bags == sheet.demand[j], "a plan meets each demand");
    }
}

// By the prices that are given: without that of the extra café, w. Its lanes cost 0, so no u + w is above 0, and a roastery that keeps bags has u + w = 0: no
// other has a greater u. All this holds of struck parties too.
static void claim_least(const Sheet &sheet, const Prices &prices, const Grid &plan) {
    Whole greatest = *std::max_element(prices.u.begin(), prices.u.end());
    for (size_t i = 0; i < sheet.m(); i++) {
        for (size_t j = 0; j < sheet.n(); j++) {
            Whole reduced = prices.reduced(sheet, {i, j});
            claim(plan[i][j] >= 0 && reduced >= 0 && (plan[i][j] == 0 || reduced == 0), "the prices prove the plan");
        }
        claim(total(plan[i]) == sheet.supply[i] || prices.u[i] == greatest, "a roastery that keeps bags has the greatest price");
    }
}

Solution solution_at(const Sheet &sheet, const Path::Stop &end) {
    Grid plan = settled_plan(sheet, end.prices, end.tableau);
    Prices given = end.prices;
    given.v.resize(sheet.n());
    claim_meets(sheet, plan);
    claim_least(sheet, given, plan);
    claim(!has_few_plans(sheet) || search(sheet) == plan, "a search through all plans finds the settled plan");
    return {cost_of(sheet, plan), end.rounds, given, plan};
}

Solution solve(const Sheet &sheet) {
    Sheet extended = ::extended(sheet);
    return solution_at(sheet, Path(extended, start(extended)).end());
}

static void write_list(std::ostream &text, const char *name, const List &list) {
    text << name << " " << list.size() << "\n";
    for (Whole number : list) text << number << "\n";
}

std::string plan_text(const Solution &solution) {
    std::ostringstream text, lanes;
    size_t count = 0;
    for (size_t i = 0; i < solution.plan.size(); i++)
        for (size_t j = 0; j < solution.plan[i].size(); j++) {
            if (solution.plan[i][j] == 0) continue;
            lanes << i + 1 << " " << j + 1 << " " << solution.plan[i][j] << "\n";
            count++;
        }
    write_list(text, "total", {solution.cost});
    write_list(text, "rounds", {(Whole)solution.rounds});
    write_list(text, "roasteries", solution.prices.u);
    write_list(text, "cafes", solution.prices.v);
    text << "lanes " << count << "\n" << lanes.str();
    return text.str();
}

std::string answer(const std::string &text) {
    Reading reading = read_sheet(text);
    if (reading.refusal == no_refusal) return plan_text(solve(reading.sheet));
    std::string place = reading.refusal == 9 ? " " + std::to_string(reading.place) : "";
    return "refused " + std::to_string(reading.refusal) + place + "\n";
}
