// Holds set up and the edits to the reference: the samples, and COUNT cases that are made from a
// seed, of each kind in turn. A case is a sheet that is set up, and several edits. A kind of case
// is one test. A call that differs is told in full; with the number of its case as FIRST and a
// count of 1 it runs again.
#include "../hostile/random_lists.h"
#include "../hostile/report.h"
#include "random_edits.h"
#include "samples.h"
#include "tampering.h"

#include <algorithm>
#include <cstdio>
#include <exception>

// An edit that was made, and what came of it.
struct Step {
    Edit edit;
    Rooms rooms;
    Lending lending;
    Outcome outcome;
};

// Makes the calls of a case, and holds each to what is expected.
class Holder {
    const std::string name; // of the case
    Tally &tally;

    void tell(const std::string &call, const std::string &difference);
    void note_refusal(int number);
    void note(const Owed &owed, const Edit &edit);
    std::string difference_from_solve(const panel_standing &standing, const Step &step, const Owed &owed);

public:
    Dice &dice;
    Holder(const std::string &name, Tally &tally, Dice &dice) : name(name), tally(tally), dice(dice) {}
    // Both give what has to come of the call. That is what came of it too, or else the difference
    // is told.
    panel_standing hold_set_up(const Lists &lists);
    panel_standing hold_set_up(const Sheet &sheet) { return hold_set_up(lists_of(sheet)); }
    Step hold_edit(const panel_standing &standing, const Edit &edit, const Rooms &rooms);
    // The same edit again gives the same, wherever its lists stand.
    void hold_again(const panel_standing &standing, const Step &step);
};

void Holder::tell(const std::string &call, const std::string &difference) {
    const uint64_t most_told = 5;
    if (++tally.differ > most_told) return;
    std::printf("%s differs\n%s%s", name.c_str(), call.c_str(), difference.c_str());
    if (tally.differ == most_told) std::puts("what differs after this in cases of this kind is counted only");
    std::fflush(stdout);
}

// A tally has no place of its own for 12.
void Holder::note_refusal(int number) {
    if (number == 12) tally.count("refused 12:");
    else tally.refused(number);
}

void Holder::note(const Owed &owed, const Edit &edit) {
    const Outcome &outcome = owed.outcome;
    tally.count("edits");
    if (outcome.refusal != no_refusal) return note_refusal(outcome.refusal);
    Sheet sheet = sheet_of(outcome.standing);
    tally.count(edit.of_cost ? "costs set" : "amounts set");
    tally.count("costs set with rounds", edit.of_cost && outcome.rounds > 0);
    tally.count("with other rounds than from nothing", outcome.rounds != owed.rounds_from_nothing);
    tally.count("with a surplus", surplus(sheet) > 0);
    tally.count("with parties at 0", has_struck(sheet));
    tally.note_most("most rounds", outcome.rounds);
}

panel_standing Holder::hold_set_up(const Lists &lists) {
    Outcome owed = expected_set_up(lists);
    std::string difference = difference_of(owed, outcome_of_set_up(lists, any_lending(dice)));
    if (!difference.empty()) tell(shown(lists), difference);
    tally.count("set up", owed.refusal == no_refusal);
    if (owed.refusal != no_refusal) note_refusal(owed.refusal);
    return owed.standing;
}

// Solve on the edited lists refuses as the edit does, or gives the same cost, prices and plan; and
// the same rounds, if the edit began afresh.
std::string Holder::difference_from_solve(const panel_standing &standing, const Step &step, const Owed &owed) {
    Outcome solved = outcome_of_solve(edited(lists_of(standing.sheet), step.edit), step.rooms, step.lending);
    std::string difference = solved.rounds == owed.rounds_from_nothing ? "" : "  solve makes other rounds than the reference\n";
    solved.standing = step.outcome.standing;
    if (step.edit.of_cost) solved.rounds = step.outcome.rounds;
    std::string other = difference_of(step.outcome, solved);
    return difference + (other.empty() ? "" : "  and solve on the edited lists, where 'expected' is what the edit gives:\n" + other);
}

Step Holder::hold_edit(const panel_standing &standing, const Edit &edit, const Rooms &rooms) {
    Step step = {edit, rooms, any_lending(dice), {}};
    auto tell_edit = [&](const std::string &difference) { tell(shown(standing) + shown(edit, rooms, step.lending), difference); };
    try {
        Owed owed = expected_edit(standing, edit, rooms, step.lending);
        step.outcome = outcome_of_edit(standing, edit, rooms, step.lending);
        std::string difference = difference_of(owed.outcome, step.outcome);
        if (owed.as_solve) difference += difference_from_solve(standing, step, owed);
        if (!difference.empty()) tell_edit(difference);
        note(owed, edit);
        step.outcome = owed.outcome;
    } catch (const Broken &broken) {
        tell_edit(std::string("  broken: ") + broken.what() + "\n");
        step.outcome.standing = standing;
    }
    return step;
}

void Holder::hold_again(const panel_standing &standing, const Step &step) {
    Lending lending = step.lending;
    lending.at_end = (unsigned)dice.below(256);
    std::string difference = difference_of(step.outcome, outcome_of_edit(standing, step.edit, step.rooms, lending));
    if (!difference.empty()) tell(shown(standing) + shown(step.edit, step.rooms, lending), "  made again from stored bytes\n" + difference);
    tally.count("made again");
}

// ---- sheets

using Make = Sheet (*)(Dice &);

static Sheet any_small_sheet(Dice &dice) {
    size_t m = 1 + dice.below(6), n = 1 + dice.below(6);
    return dice.once_in(2) ? small_sheet(dice) : filled(dice, blank(m, n));
}

static Sheet any_middle_sheet(Dice &dice) {
    static const std::vector<Make> makes = {sheet_of_ties, degenerate_sheet, sheet_of_summed_costs, narrow_sheet, sheet_of_large_numbers, any_sheet};
    return dice.one_of(makes)(dice);
}

static Sheet any_large_sheet(Dice &dice) {
    size_t m = 16 + dice.below(17), n = 16 + dice.below(17);
    return dice.once_in(2) ? full_sheet(dice) : filled(dice, blank(m, n));
}

// Many or few cafés, one of them open.
static Sheet one_open_sheet(Dice &dice) {
    size_t m = 1 + dice.below(3), n = dice.one_of<size_t>({1, 1, 2, 31, 32, 32});
    Sheet sheet = blank(m, n);
    random_costs(dice, sheet, dice.one_of({1, 3, most}));
    sheet.demand.assign(n, 0);
    dice.one_of(sheet.demand) = total(sheet.supply);
    if (n < full && dice.once_in(2)) dice.one_of(sheet.supply) += 2;
    return sheet;
}

static Sheet any_size_sheet(Dice &dice) {
    static const std::vector<Make> makes = {any_small_sheet, any_small_sheet, any_small_sheet, any_middle_sheet, any_middle_sheet, one_open_sheet};
    return dice.once_in(20) ? any_large_sheet(dice) : dice.one_of(makes)(dice);
}

// ---- set up

using ChangeLists = void (*)(Dice &, Lists &);

static void set_up_case(Holder &holder) {
    static const std::vector<ChangeLists> changes = {change_sizes, change_numbers, close_parties, change_totals};
    Dice &dice = holder.dice;
    Lists lists = lists_of(any_size_sheet(dice));
    holder.hold_set_up(lists);
    for (int turn = 0; turn < 4; turn++) {
        Lists changed = lists;
        for (size_t count = 1 + dice.below(2); count > 0; count--) dice.one_of(changes)(dice, changed);
        holder.hold_set_up(changed);
    }
}

// ---- histories

using MakeEdit = Edit (*)(Dice &, const panel_standing &);
using MakeRooms = Rooms (*)(Dice &, const panel_standing &);

// Edits one after the other, and how the sheet stands after them.
static std::vector<Step> history(Holder &holder, panel_standing standing, size_t length, MakeEdit make_edit, MakeRooms make_rooms) {
    std::vector<Step> steps;
    for (; length > 0; length--) {
        Edit edit = make_edit(holder.dice, standing);
        steps.push_back(holder.hold_edit(standing, edit, make_rooms(holder.dice, standing)));
        standing = steps.back().outcome.standing;
    }
    return steps;
}

template <Make make, MakeEdit make_edit, size_t length> static void history_case(Holder &holder) {
    history(holder, holder.hold_set_up(make(holder.dice)), length, make_edit, wide_rooms);
}

template <Make make, MakeEdit make_edit> static void refused_case(Holder &holder) {
    panel_standing standing = holder.hold_set_up(make(holder.dice));
    history(holder, standing, 12, make_edit, holder.dice.once_in(2) ? any_rooms : wide_rooms);
}

// The counter is near its largest value, which the history gets to.
static void last_edits_case(Holder &holder) {
    panel_standing standing = holder.hold_set_up(any_small_sheet(holder.dice));
    standing.counter = largest_counter - holder.dice.below(5);
    history(holder, standing, 12, any_edit, wide_rooms);
}

// Steps made again from where they began. Now and then what stands is stored in between.
static void make_again(Holder &holder, panel_standing standing, const std::vector<Step> &steps, size_t from) {
    for (size_t k = from; k < steps.size(); k++) {
        if (holder.dice.once_in(3)) standing = restored(stored(standing));
        holder.hold_again(standing, steps[k]);
        standing = steps[k].outcome.standing;
    }
}

// A history made again, all of it and from a copy that was stored in the midst of it.
static void stored_case(Holder &holder) {
    Sheet sheet = any_size_sheet(holder.dice);
    std::vector<Step> steps = history(holder, holder.hold_set_up(sheet), 12, any_edit, wide_rooms);
    size_t middle = holder.dice.below(steps.size() - 1);
    Bytes copy = stored(steps[middle].outcome.standing);
    make_again(holder, holder.hold_set_up(sheet), steps, 0);
    make_again(holder, restored(copy), steps, middle + 1);
}

// ---- standing sheets that were tampered with

// An edit of the sheet as it became. It fits that, if the first check passes, or the sheet as it
// was.
static void hold_tampered(Holder &holder, const panel_standing &standing, const panel_standing &tampered) {
    Dice &dice = holder.dice;
    const panel_standing &fitting = dice.once_in(2) && refusal_of(tampered) == no_refusal ? tampered : standing;
    Edit edit = any_edit(dice, fitting);
    holder.hold_edit(tampered, edit, dice.once_in(8) ? any_rooms(dice, fitting) : wide_rooms(dice, fitting));
}

static void tampered_case_of(Holder &holder, const std::vector<Tamper> &ways, size_t count) {
    panel_standing standing = holder.hold_set_up(any_size_sheet(holder.dice));
    for (int turn = 0; turn < 8; turn++) {
        panel_standing tampered = standing;
        for (size_t change = 0; change < count; change++) holder.dice.one_of(ways)(holder.dice, tampered);
        hold_tampered(holder, standing, tampered);
    }
}

template <Tamper tamper> static void tampered_case(Holder &holder) { tampered_case_of(holder, {tamper}, 1); }

// Several faults at once. What comes first is refused.
static void many_faults_case(Holder &holder) {
    tampered_case_of(holder, {tamper_with_sides, tamper_with_amounts, tamper_with_costs, tamper_with_count, tamper_with_cells, tamper_with_counter},
                     2 + holder.dice.below(2));
}

// What is behind the lists stays there over several edits; behind the cells zeros come.
static void spare_case(Holder &holder) {
    panel_standing standing = holder.hold_set_up(any_size_sheet(holder.dice));
    fill_spare(holder.dice, standing);
    history(holder, standing, 8, any_edit, wide_rooms);
}

// Edits that go on from a finished tableau that set up does not give.
static void other_finished_case(Holder &holder) {
    panel_standing standing = holder.hold_set_up(any_size_sheet(holder.dice));
    for (int turn = 0; turn < 6; turn++) {
        take_other_finished_tableau(holder.dice, standing);
        standing = history(holder, standing, 1, any_edit, wide_rooms).back().outcome.standing;
    }
}

// ---- all kinds

struct Kind {
    const char *name;
    void (*make)(Holder &);
};

static const std::vector<Kind> kinds = {
    {"set up", set_up_case},
    {"histories of cost edits", history_case<any_small_sheet, any_cost_edit, 20>},
    {"histories of amount edits", history_case<any_small_sheet, any_amount_edit, 20>},
    {"histories of small sheets", history_case<any_small_sheet, any_edit, 30>},
    {"histories of middle sheets", history_case<any_middle_sheet, any_edit, 12>},
    {"histories of large sheets", history_case<any_large_sheet, any_edit, 5>},
    {"histories of sheets with one open café", history_case<one_open_sheet, any_edit, 15>},
    {"histories to the largest counter", last_edits_case},
    {"histories from stored bytes", stored_case},
    {"edits to refuse", refused_case<any_size_sheet, refusable_edit>},
    {"edits to refuse of sheets with one open café", refused_case<one_open_sheet, refusable_edit>},
    {"lists too short", refused_case<any_size_sheet, any_edit>},
    {"standing sheets by chance", tampered_case<take_noise>},
    {"standing sheets with flipped bits", tampered_case<flip_bits>},
    {"standing sheets of other sides", tampered_case<tamper_with_sides>},
    {"standing sheets of other amounts", tampered_case<tamper_with_amounts>},
    {"standing sheets of other costs", tampered_case<tamper_with_costs>},
    {"standing sheets of other counts", tampered_case<tamper_with_count>},
    {"standing sheets with other cells", tampered_case<tamper_with_cells>},
    {"standing sheets of other counters", tampered_case<tamper_with_counter>},
    {"standing sheets with several faults", many_faults_case},
    {"standing sheets with false tableaux", tampered_case<take_false_tableau>},
    {"standing sheets with another sheet's tableau", tampered_case<take_other_tableau>},
    {"standing sheets with unfinished tableaux", tampered_case<take_unfinished_tableau>},
    {"standing sheets with other finished tableaux", other_finished_case},
    {"standing sheets with noise in spare places", spare_case},
};

static void run_case(const Case &at_hand, Tally &tally) {
    Dice dice(at_hand.seed, at_hand.number);
    Holder holder(at_hand.name, tally, dice);
    kinds[at_hand.kind].make(holder);
}

int main(int count, char **arguments) {
    if (count != 3 && count != 4) {
        std::fprintf(stderr, "usage: %s SEED COUNT [FIRST]\n", arguments[0]);
        return 2;
    }
    try {
        test_samples();
        test_kinds(kinds, cases_of(count - 1, arguments + 1), run_case);
    } catch (const std::exception &error) {
        test(error.what(), false);
    }
    return tell_count();
}
