// Random edits of a standing sheet on which the first check passes, and rooms for what they fill.
#ifndef STANDING_RANDOM_EDITS_H
#define STANDING_RANDOM_EDITS_H

#include "expected.h"

// Most of these are accepted.
Edit any_cost_edit(Dice &dice, const panel_standing &standing);
Edit any_amount_edit(Dice &dice, const panel_standing &standing);
// To be refused by 3, 4, 5, 10, 11 or 12, or by several, or just not.
Edit refusable_edit(Dice &dice, const panel_standing &standing);
// One of these; every seventh may be refused.
Edit any_edit(Dice &dice, const panel_standing &standing);

Rooms any_rooms(Dice &dice, const panel_standing &standing);
// Most of them long enough.
Rooms wide_rooms(Dice &dice, const panel_standing &standing);

#endif
