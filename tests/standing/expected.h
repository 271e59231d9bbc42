// What set up and edits have to give (paper 02, Five), found with the plain solver of
// tests/hostile. All that stands is kept here as the structs hold it.
#ifndef STANDING_EXPECTED_H
#define STANDING_EXPECTED_H

#include "calls.h"

const uint64_t largest_counter = UINT64_MAX;

// The lists and the cells that stand at the fronts. m and n are 1 to 32, and there are at most 63
// cells.
Lists lists_of(const panel_sheet &sheet);
Cells cells_of(const panel_tableau &tableau);
// With zeros behind.
panel_tableau tableau_struct(const Tableau &tableau);
panel_standing standing_struct(const Lists &lists, const Tableau &tableau, uint64_t counter);

// The first of the first check, which takes any bytes.
int refusal_of(const panel_standing &standing);

// Of one on which the first check passes: its sheet, the sheet that its tableau is of, and its
// prices.
Sheet sheet_of(const panel_standing &standing);
Sheet extended_of(const panel_standing &standing);
Prices prices_of(const panel_standing &standing);

// The edit names parties that are on the sheet.
Lists edited(Lists lists, const Edit &edit);
// How many places the lists for prices and plan need.
Rooms needs_of(const panel_standing &standing);

Outcome expected_set_up(const Lists &lists);

struct Owed {
    Outcome outcome;
    bool as_solve;                // the edit passes the first check and 12: it is refused, or not, as solve on the edited sheet is
    uint64_t rounds_from_nothing; // those of solve, if the edit is accepted
};

Owed expected_edit(const panel_standing &standing, const Edit &edit, const Rooms &rooms, const Lending &lending);

#endif
