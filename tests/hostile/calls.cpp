// Holds the library to the reference: COUNT cases that are made from a seed, of each kind in turn. A case is a sheet, or a text, and several calls with it.
// A kind of case is one test. A call that differs is told in full; with the number of its case as FIRST and a count of 1 it runs again.
#include "expected.h"
#include "random_lists.h"
#include "random_tableaux.h"
#include "random_texts.h"
#include "report.h"

#include <algorithm>
#include <cstdio>
#include <exception>

// Makes the calls of a case, and holds each to what is expected.
class Holder {
    const std::string name; // of the case
    Tally &tally;

    void tell(const Known &known, const Call &call, const std::string &difference);
    void note(const Known &known, const Call &call, const Outcome &outcome);

public:
    Dice &dice;
    Holder(const std::string &name, Tally &tally, Dice &dice) : name(name), tally(tally), dice(dice) {}
    void hold(Known &known, Call call);
    // With rooms as the dice say.
    void hold_in_rooms(Known &known, Call call);
};

void Holder::tell(const Known &known, const Call &call, const std::string &difference) {
    const uint64_t most_told = 5;
    if (++tally.differ > most_told) return;
    std::printf("%s differs\n%s%s", name.c_str(), shown(known.lists, call).c_str(), difference.c_str());
    if (tally.differ == most_told) std::puts("what differs after this in cases of this kind is counted only");
    std::fflush(stdout);
}

void Holder::note(const Known &known, const Call &call, const Outcome &outcome) {
    tally.count("calls");
    int refusal = (int)outcome.fields[0].value;
    if (refusal != no_refusal) tally.refused(refusal);
    else if (call.entry == Entry::round || call.entry == Entry::run) tally.count(outcome.fields[1].value ? "finished" : "unfinished");
    else tally.count("done");
    tally.count("with a surplus", refusal == no_refusal && surplus(known.sheet) > 0);
    tally.count("with parties at 0", refusal == no_refusal && has_struck(known.sheet));
    bool has_plan = call.entry == Entry::settle || call.entry == Entry::solve || call.entry == Entry::write_plan;
    if (refusal == no_refusal && has_plan) tally.count("plans searched", has_few_plans(known.sheet));
    if (call.entry == Entry::run || call.entry == Entry::solve) tally.note_most("most rounds", outcome.fields[2].value);
    if (call.entry == Entry::solve) tally.count("with a total below 0", (Whole)outcome.fields[1].value < 0);
}

void Holder::hold(Known &known, Call call) {
    call.at_end = (unsigned)dice.below(256);
    call.sealed = dice.once_in(4);
    call.shared = dice.once_in(2);
    call.first_byte = (unsigned char)dice.below(256);
    try {
        Outcome owed = expected(known, call), seen = outcome_of(known.lists, call);
        note(known, call, owed);
        std::string difference = difference_of(call, owed, seen);
        if (!difference.empty()) tell(known, call, difference);
    } catch (const Broken &broken) {
        tell(known, call, std::string("  broken: ") + broken.what() + "\n");
    }
}

// ---- rooms

static size_t any_room(Dice &dice, size_t needed) {
    needed = std::min<size_t>(needed, 20'000);
    if (dice.once_in(100)) return 65'536;
    size_t shorter = needed - std::min<size_t>(needed, 1);
    switch (dice.below(12)) {
    case 0: return shorter;
    case 1: return dice.once_in(3) ? 0 : shorter;
    case 2: return dice.once_in(3) ? dice.below(needed + 1) : needed;
    case 3: return needed + 1;
    case 4: return needed + 1 + dice.below(100);
    case 5: return std::max<size_t>(needed, dice.once_in(4) ? 16'000 : 1'024);
    default: return needed;
    }
}

void Holder::hold_in_rooms(Known &known, Call call) {
    for (size_t needed : needs_of(known, call)) call.rooms.push_back(any_room(dice, needed));
    hold(known, call);
}

// ---- allowances

// Around the number of rounds that are left, or far from it.
static uint32_t any_allowance(Dice &dice, size_t left) {
    Whole rounds = (Whole)left, far = dice.one_of({256, 65'536, Whole{1} << 31, UINT32_MAX - 1, UINT32_MAX});
    return (uint32_t)dice.one_of({0, 1, 2, rounds, rounds, std::max<Whole>(rounds - 1, 0), rounds + 1, dice.between(0, rounds), far});
}

// ---- sheets and tableaux

static Sheet any_accepted_sheet(Dice &dice) {
    using Make = Sheet (*)(Dice &);
    static const std::vector<Make> makes = {small_sheet,      small_sheet, small_sheet,           any_sheet,              any_sheet,
                                            sheet_of_ties,    narrow_sheet, degenerate_sheet,     sheet_of_summed_costs,  sheet_of_orderly_costs,
                                            sheet_of_ties,    narrow_sheet, degenerate_sheet,     sheet_of_large_numbers, full_sheet};
    Sheet sheet = dice.one_of(makes)(dice);
    if (sheet.m() == sheet.n() && dice.once_in(2)) sheet.demand = sheet.supply;
    return sheet;
}

// On the way from the start or off it; the whole way is long on large sheets.
static Tableau any_tableau(Dice &dice, Known &known) {
    Path &path = known.path_from_start();
    switch (dice.below(6)) {
    case 0: return path.after(0).tableau;
    case 1: return path.after(dice.below(4)).tableau;
    case 2: return path.end().tableau;
    case 3: return wandered_among_finished(dice, known.extended, path.end().prices, path.end().tableau, dice.below(6));
    default: return wandered(dice, known.extended, path.after(0).tableau, dice.below(8));
    }
}

static void hold_tableau(Holder &holder, Known &known, const Cells &cells) {
    holder.hold(known, {Entry::round, cells});
    holder.hold(known, {Entry::run, cells, any_allowance(holder.dice, 3)});
    holder.hold_in_rooms(known, {Entry::settle, cells});
}

// ---- calls that mostly succeed

static void start_case(Holder &holder) {
    Known known(any_accepted_sheet(holder.dice));
    for (int turn = 0; turn < 4; turn++) holder.hold(known, {Entry::start});
}

static void path_case(Holder &holder) {
    Known known(any_accepted_sheet(holder.dice));
    Path &path = known.path_from_start();
    uint64_t rounds = path.end().rounds;
    for (uint64_t turn = 0; turn < std::min<uint64_t>(rounds, 20); turn++)
        holder.hold(known, {Entry::round, cells_of(path.after(rounds > 20 ? holder.dice.below(rounds) : turn).tableau)});
    holder.hold(known, {Entry::round, cells_of(path.end().tableau)});
}

static void hold_runs(Holder &holder, Known &known, const Tableau &tableau, int turns) {
    uint64_t rounds = known.path_from(tableau).end().rounds;
    for (; turns > 0; turns--) holder.hold(known, {Entry::run, cells_of(tableau), any_allowance(holder.dice, rounds)});
}

static void allowance_case(Holder &holder) {
    Known known(any_accepted_sheet(holder.dice));
    hold_runs(holder, known, start(known.extended), 15);
}

static void wander_case(Holder &holder) {
    Known known(any_accepted_sheet(holder.dice));
    Tableau tableau = start(known.extended);
    for (int turn = 0; turn < 5; turn++) {
        tableau = wandered(holder.dice, known.extended, tableau, 1 + holder.dice.below(4));
        hold_tableau(holder, known, cells_of(tableau));
    }
    hold_runs(holder, known, tableau, 5);
}

static void tree_case(Holder &holder) {
    Known known(holder.dice.once_in(2) ? small_sheet(holder.dice) : any_accepted_sheet(holder.dice));
    for (int turn = 0; turn < 5; turn++) hold_tableau(holder, known, random_tree(holder.dice, known.extended));
}

static void settle_case(Holder &holder) {
    Known known(any_accepted_sheet(holder.dice));
    const Path::Stop &end = known.path_from_start().end();
    Tableau tableau = end.tableau;
    for (int turn = 0; turn < 10; turn++) {
        holder.hold_in_rooms(known, {Entry::settle, cells_of(tableau)});
        tableau = wandered_among_finished(holder.dice, known.extended, end.prices, tableau, holder.dice.below(3));
    }
    holder.hold_in_rooms(known, {Entry::settle, cells_of(start(known.extended))});
}

template <Entry entry> static void filling_case(Holder &holder) {
    Known known(any_accepted_sheet(holder.dice));
    for (int turn = 0; turn < 10; turn++) holder.hold_in_rooms(known, {entry});
}

// ---- texts

static void hold_text(Holder &holder, const std::string &text) {
    Known known(Lists{});
    Call call = {Entry::read_sheet};
    call.text = text;
    for (int turn = 0; turn < 4; turn++) holder.hold_in_rooms(known, call);
}

static void sheet_text_case(Holder &holder) { hold_text(holder, sheet_text(any_accepted_sheet(holder.dice))); }

static void any_text_case(Holder &holder) {
    std::string text = holder.dice.one_of(text_kinds).make(holder.dice);
    if (holder.dice.once_in(50)) text += std::string(65'536, holder.dice.one_of({'\n', '0'}));
    hold_text(holder, text);
}

static void minus_text_case(Holder &holder) { hold_text(holder, text_of_minuses(holder.dice)); }

// ---- lists that are no sheet

using ChangeLists = void (*)(Dice &, Lists &);

// Every call, with a tableau of the sheet as it was or with cells that are none.
static void hold_lists(Holder &holder, const Lists &lists, const Cells &cells) {
    Known known(lists);
    holder.hold(known, {Entry::start});
    hold_tableau(holder, known, cells);
    for (Entry entry : {Entry::solve, Entry::write_sheet, Entry::write_plan}) holder.hold_in_rooms(known, {entry});
}

static void hold_changed_lists(Holder &holder, const std::vector<ChangeLists> &changes, size_t count) {
    Known known(any_accepted_sheet(holder.dice));
    Cells cells = cells_of(start(known.extended));
    if (holder.dice.once_in(3)) put_noise(holder.dice, known.extended, cells);
    for (int turn = 0; turn < 3; turn++) {
        Lists lists = known.lists;
        for (size_t change = 0; change < count; change++) holder.dice.one_of(changes)(holder.dice, lists);
        hold_lists(holder, lists, cells);
    }
}

template <ChangeLists change> static void changed_lists_case(Holder &holder) { hold_changed_lists(holder, {change}, 1); }

static void many_faults_case(Holder &holder) {
    hold_changed_lists(holder, {change_sizes, change_numbers, close_parties, change_totals}, 2 + holder.dice.below(4));
}

// ---- cells that are no tableau

static void hold_changed_tableaux_of(Holder &holder, const Sheet &sheet, const std::vector<Change> &changes, size_t count) {
    Known known(sheet);
    Tableau tableau = any_tableau(holder.dice, known);
    for (int turn = 0; turn < 6; turn++) {
        Cells cells = cells_of(tableau);
        for (size_t change = 0; change < count && !cells.empty(); change++) holder.dice.one_of(changes)(holder.dice, known.extended, cells);
        hold_tableau(holder, known, cells);
    }
}

static void hold_changed_tableaux(Holder &holder, const std::vector<Change> &changes, size_t count) {
    hold_changed_tableaux_of(holder, any_accepted_sheet(holder.dice), changes, count);
}

template <Change change> static void changed_tableau_case(Holder &holder) { hold_changed_tableaux(holder, {change}, 1); }

// Of sheets that have struck parties.
static void changed_parties_case(Holder &holder) {
    Sheet sheet = any_accepted_sheet(holder.dice);
    while (!has_struck(sheet)) sheet = any_accepted_sheet(holder.dice);
    hold_changed_tableaux_of(holder, sheet, {change_parties}, 1);
}

// Pairs cannot be shifted once the cells are no tableau.
static void many_changes_case(Holder &holder) {
    hold_changed_tableaux(holder, {change_count, put_off_sheet, change_order, change_amounts}, 2 + holder.dice.below(2));
}

// ---- all kinds

struct CallKind {
    const char *name;
    void (*make)(Holder &);
};

static const std::vector<CallKind> call_kinds = {
    {"start", start_case},
    {"round on the way from the start", path_case},
    {"run with allowances", allowance_case},
    {"round, run and settle off that way", wander_case},
    {"round, run and settle with random trees", tree_case},
    {"settle in any room", settle_case},
    {"solve in any room", filling_case<Entry::solve>},
    {"write sheet in any room", filling_case<Entry::write_sheet>},
    {"write plan in any room", filling_case<Entry::write_plan>},
    {"read sheet in any room", sheet_text_case},
    {"read sheet from any text", any_text_case},
    {"read sheet from texts with a minus", minus_text_case},
    {"lists of other sizes", changed_lists_case<change_sizes>},
    {"lists of other numbers", changed_lists_case<change_numbers>},
    {"lists with parties at 0", changed_lists_case<close_parties>},
    {"lists of other totals", changed_lists_case<change_totals>},
    {"lists with several faults", many_faults_case},
    {"tableaux of other counts", changed_tableau_case<change_count>},
    {"tableaux with cells off the sheet", changed_tableau_case<put_off_sheet>},
    {"tableaux with another last column", changed_tableau_case<change_last_column>},
    {"tableaux with other parties", changed_parties_case},
    {"tableaux in other orders", changed_tableau_case<change_order>},
    {"tableaux with other amounts", changed_tableau_case<change_amounts>},
    {"tableaux with shifted pairs", changed_tableau_case<shift_pairs>},
    {"tableaux with several changes", many_changes_case},
    {"cells by chance", changed_tableau_case<put_noise>},
};

static void run_case(const Case &at_hand, Tally &tally) {
    Dice dice(at_hand.seed, at_hand.number);
    Holder holder(at_hand.name, tally, dice);
    call_kinds[at_hand.kind].make(holder);
}

int main(int count, char **arguments) {
    if (count != 3 && count != 4) {
        std::fprintf(stderr, "usage: %s SEED COUNT [FIRST]\n", arguments[0]);
        return 2;
    }
    try {
        test_kinds(call_kinds, cases_of(count - 1, arguments + 1), run_case);
    } catch (const std::exception &error) {
        test(error.what(), false);
    }
    return tell_count();
}
