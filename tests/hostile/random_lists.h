// Lists that are no sheet, or just one.
#ifndef RANDOM_LISTS_H
#define RANDOM_LISTS_H

#include "random_sheets.h"

// Empty lists, too many parties, costs too few or too many.
void change_sizes(Dice &dice, Lists &lists);
// Supplies, demands and costs at and beyond the limits, up to the ends of 64 bits.
void change_numbers(Dice &dice, Lists &lists);
// Parties at 0: one, all but one of a side, all cafés, or all.
void close_parties(Dice &dice, Lists &lists);
// Totals that differ, or that are equal only if they wrap around; also with as many cafés as there may be, or one more or less.
void change_totals(Dice &dice, Lists &lists);

#endif
