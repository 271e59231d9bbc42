// Random sheets, most of them accepted.
#ifndef RANDOM_SHEETS_H
#define RANDOM_SHEETS_H

#include "dice.h"

const Whole most = 1'000'000, seven_nines = 9'999'999;
const size_t full = 32;

// One bag a party, and every cost 0.
Sheet blank(size_t m, size_t n);
// A sheet of this size with random bags and costs.
Sheet filled(Dice &dice, Sheet sheet);
// Up to `top` in size: none below 0, none above 0, or of both signs.
void random_costs(Dice &dice, Sheet &sheet, Whole top);

// Balanced or with a surplus, with parties at 0 or without, and accepted.
Sheet any_sheet(Dice &dice);
Sheet small_sheet(Dice &dice);
Sheet sheet_of_ties(Dice &dice);
Sheet degenerate_sheet(Dice &dice);
Sheet sheet_of_summed_costs(Dice &dice);
Sheet sheet_of_orderly_costs(Dice &dice);
Sheet sheet_of_large_numbers(Dice &dice);
Sheet narrow_sheet(Dice &dice);
Sheet full_sheet(Dice &dice);

// To refuse by 3, 4, 5, 10 or 11, or just not.
Sheet unequal_sheet(Dice &dice);
Sheet sheet_of_many_cafes(Dice &dice);
Sheet sheet_of_closed_cafes(Dice &dice);
Sheet sheet_at_the_limits(Dice &dice);

#endif
