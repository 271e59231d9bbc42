// The calls on standing sheets as data: what is handed and lent to them, and what comes of them.
#ifndef STANDING_CALLS_H
#define STANDING_CALLS_H

#include "../../crates/exports/panel.h"
#include "../hostile/dice.h"
#include "../hostile/lent.h"

#include <array>

// Sets the cost of a lane, or a supply and a demand together.
struct Edit {
    size_t row, col;
    bool of_cost;
    Whole cost;              // of a cost edit
    uint64_t supply, demand; // of an edit of amounts
};

inline Edit cost_edit(size_t row, size_t col, Whole cost) { return {row, col, true, cost, 0, 0}; }
inline Edit amount_edit(size_t row, size_t col, uint64_t supply, uint64_t demand) { return {row, col, false, 0, supply, demand}; }

// The lengths of the lists for u, v and the plan.
using Rooms = std::array<size_t, 3>;

// How the lists of a call are lent.
struct Lending {
    unsigned at_end = 0;          // a bit for each list that stands at the end of its pages
    bool sealed = false;          // what is only read is sealed
    bool shared = false;          // supply and demand are one list if they are equal
    unsigned char first_byte = 0; // in the lists that may be filled

    // What a list of so many places that may be filled holds before.
    Bytes before(size_t room) const { return pattern(first_byte, room * 8); }
};

Lending any_lending(Dice &dice);

struct Outcome {
    int refusal = no_refusal;
    Whole cost = 0;
    uint64_t rounds = 0;
    panel_standing standing = {};         // set up, or after the edit
    std::vector<Bytes> filled = {};       // u, v and plan after the call
    std::vector<std::string> damage = {}; // what should not have happened at all
};

template <class Item> Bytes bytes_of(const std::vector<Item> &items) { return Bytes((const char *)items.data(), items.size() * sizeof(Item)); }

// Make the calls.
Outcome outcome_of_set_up(const Lists &lists, const Lending &lending);
Outcome outcome_of_edit(const panel_standing &standing, const Edit &edit, const Rooms &rooms, const Lending &lending);
Outcome outcome_of_solve(const Lists &lists, const Rooms &rooms, const Lending &lending);

// A standing sheet as a program stores it, and back.
Bytes stored(const panel_standing &standing);
panel_standing restored(const Bytes &bytes);

// Calls in full, and where two outcomes differ: nothing if they do not.
std::string shown(const Lists &lists);
std::string shown(const panel_standing &standing);
std::string shown(const Edit &edit, const Rooms &rooms, const Lending &lending);
std::string difference_of(const Outcome &expected, const Outcome &seen);

#endif
