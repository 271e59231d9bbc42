// Random numbers of a case, always the same for its seed and number.
#ifndef DICE_H
#define DICE_H

#include "reference.h"

#include <initializer_list>
#include <random>

class Dice {
    std::mt19937_64 numbers;

public:
    Dice(uint64_t seed, uint64_t number) {
        std::seed_seq start{seed, seed >> 32, number};
        numbers.seed(start);
    }
    uint64_t any() { return numbers(); }
    Whole between(Whole low, Whole high) { return low + (Whole)(numbers() % (uint64_t)(high - low + 1)); }
    size_t below(size_t top) { return numbers() % top; }
    bool once_in(size_t turns) { return below(turns) == 0; }
    template <class Many> auto &one_of(Many &many) { return many[below(many.size())]; }
    template <class Item> Item one_of(std::initializer_list<Item> items) { return items.begin()[below(items.size())]; }
    Whole one_of(std::initializer_list<Whole> items) { return one_of<Whole>(items); }
};

#endif
