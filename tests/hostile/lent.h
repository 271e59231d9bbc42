// Memory that is lent to a call. Pages that nobody may touch stand around it, so that a read or a write there ends the call by a signal. A list begins right
// after the one or ends right before the other; the bytes between it and the farther one are guards, which must stay.
#ifndef LENT_H
#define LENT_H

#include <cstddef>
#include <functional>
#include <string>

using Bytes = std::string;

// Bytes that differ from place to place.
Bytes pattern(unsigned char first, size_t length);

class Lent {
    unsigned char *pages, *list;
    size_t pages_length, length;
    size_t before() const { return (size_t)(list - pages); }
    size_t after() const { return pages_length - before() - length; }

public:
    // The lists of one call have different slots.
    Lent(size_t slot, const Bytes &content, bool at_end);
    // While it is sealed, it may be read only.
    void seal(bool sealed);
    Bytes now() const { return Bytes((const char *)list, length); }
    bool holds(const Bytes &content) const;
    bool keeps_guards() const;
    template <class Item> Item *items() const { return (Item *)list; }
};

// Makes a call, and gives the signal that ended it, or 0. A call that takes a minute is ended by SIGALRM.
int signal_in(const std::function<void()> &call);

#endif
