// A call of the library as data: what is lent to it, and what comes of it.
#ifndef CALL_H
#define CALL_H

#include "../../crates/exports/panel.h"
#include "lent.h"
#include "reference.h"

enum class Entry { start, round, run, settle, solve, read_sheet, write_sheet, write_plan };

const char *name_of(Entry entry);
bool takes_tableau(Entry entry);
// The width of a place in the lists that it fills.
size_t width_of(Entry entry);

// Beside the sheet.
struct Call {
    Entry entry;
    Cells cells = {};               // of round, run and settle
    uint32_t allowance = 0;         // of run
    std::string text = {};          // of read sheet
    std::vector<size_t> rooms = {}; // the lengths of the lists that it may fill
    // How it is lent: a bit for each list that stands at the end of its pages; whether what is only read is sealed; whether supply and demand are one list if
    // they are equal; and the first byte in the lists that it may fill.
    unsigned at_end = 0;
    bool sealed = false, shared = false;
    unsigned char first_byte = 0;

    // What a list that it may fill holds before.
    Bytes before(size_t list) const { return pattern(first_byte, rooms[list] * width_of(entry)); }
};

// A field of a result.
struct Field {
    const char *name;
    size_t index;
    uint64_t value;
    bool is_signed;
};
using Fields = std::vector<Field>;

Fields fields_of(uint8_t refusal);
Fields fields_of(const panel_start_result &result);
Fields fields_of(const panel_round_result &result);
Fields fields_of(const panel_run_result &result);
Fields fields_of(const panel_solve_result &result);
Fields fields_of(const panel_read_result &result);
Fields fields_of(const panel_write_result &result);

struct Outcome {
    Fields fields;
    std::vector<Bytes> filled;       // the lists that it may fill, after the call
    std::vector<std::string> damage; // what should not have happened at all
};

template <class Item> Bytes bytes_of(const std::vector<Item> &items) { return Bytes((const char *)items.data(), items.size() * sizeof(Item)); }

// Makes the call.
Outcome outcome_of(const Lists &sheet, const Call &call);

// The call in full, and where two outcomes of it differ: nothing if they do not.
std::string shown(const Lists &sheet, const Call &call);
std::string difference_of(const Call &call, const Outcome &expected, const Outcome &seen);

#endif
