// What may be done to a standing sheet between two calls.
#ifndef STANDING_TAMPERING_H
#define STANDING_TAMPERING_H

#include "expected.h"

using Tamper = void (*)(Dice &dice, panel_standing &standing);

// Numbers of any standing sheet become odd ones.
void tamper_with_sides(Dice &dice, panel_standing &standing);
void tamper_with_amounts(Dice &dice, panel_standing &standing);
void tamper_with_costs(Dice &dice, panel_standing &standing);
void tamper_with_count(Dice &dice, panel_standing &standing);
void tamper_with_cells(Dice &dice, panel_standing &standing);
void tamper_with_counter(Dice &dice, panel_standing &standing);
// All of it becomes noise, or all but m and n, or all but the sheet.
void take_noise(Dice &dice, panel_standing &standing);

// All that follows is for standing sheets on which the first check passes.

// A few bits, anywhere.
void flip_bits(Dice &dice, panel_standing &standing);

// Noise behind the lists, and behind the cells. The first check passes as before.
void fill_spare(Dice &dice, panel_standing &standing);

// Lists of cells that look like a tableau of the sheet.
void take_false_tableau(Dice &dice, panel_standing &standing);
// Of another sheet, which may be nearly the same.
void take_other_tableau(Dice &dice, panel_standing &standing);
// One that belongs, and mostly is not finished.
void take_unfinished_tableau(Dice &dice, panel_standing &standing);
// One that is finished too.
void take_other_finished_tableau(Dice &dice, panel_standing &standing);

#endif
