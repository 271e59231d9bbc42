// Texts of random sheets, and hostile texts.
#ifndef RANDOM_TEXTS_H
#define RANDOM_TEXTS_H

#include "random_sheets.h"

struct TextKind {
    const char *name;
    std::string (*make)(Dice &);
};

extern const std::vector<TextKind> text_kinds;
// One of them: with a minus, mostly in the costs, which may have one.
std::string text_of_minuses(Dice &dice);

// A text in pieces, often in one.
std::vector<std::string> pieces_of(Dice &dice, const std::string &text);

#endif
