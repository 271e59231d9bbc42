// Random tableaux of a sheet, and lists of cells that are none. Sheets are extended here.
#ifndef RANDOM_TABLEAUX_H
#define RANDOM_TABLEAUX_H

#include "dice.h"

// From a tableau of the sheet, by rounds that let any lanes enter.
Tableau wandered(Dice &dice, const Sheet &sheet, Tableau tableau, size_t rounds);
// From a finished tableau with these prices to another: only lanes of reduced cost 0 enter.
Tableau wandered_among_finished(Dice &dice, const Sheet &sheet, const Prices &prices, Tableau tableau, size_t rounds);
// Random lanes that join all parties without a loop, with the pairs that add up. Some may be below (0, 0).
Cells random_tree(Dice &dice, const Sheet &sheet);

// What is done to the cells of a tableau. Few of these leave cells that belong.
using Change = void (*)(Dice &dice, const Sheet &sheet, Cells &cells);
void change_count(Dice &dice, const Sheet &sheet, Cells &cells);
void put_off_sheet(Dice &dice, const Sheet &sheet, Cells &cells);
void change_order(Dice &dice, const Sheet &sheet, Cells &cells);
void change_amounts(Dice &dice, const Sheet &sheet, Cells &cells);
// As if the extra café were missing, one more were there, or it stood elsewhere.
void change_last_column(Dice &dice, const Sheet &sheet, Cells &cells);
// As if struck parties were left, or others were struck; under other numbers, or with other marks.
void change_parties(Dice &dice, const Sheet &sheet, Cells &cells);
// Pairs that add up, or nearly so.
void shift_pairs(Dice &dice, const Sheet &sheet, Cells &cells);
// Cells by chance.
void put_noise(Dice &dice, const Sheet &sheet, Cells &cells);

#endif
