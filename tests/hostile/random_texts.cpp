#include "random_texts.h"

#include <algorithm>
#include <cctype>
#include <cstdlib>

using namespace std::string_literals;

static const size_t too_long = 20'000;

template <Sheet (*make)(Dice &)> static std::string text_of(Dice &dice) { return sheet_text(make(dice)); }

static std::string any_text(Dice &dice) { return text_of<any_sheet>(dice); }

// ---- hostile texts

static std::vector<std::string> lines_of(const std::string &text) {
    std::vector<std::string> lines;
    for (size_t from = 0; from < text.size();) {
        size_t end = text.find('\n', from);
        lines.push_back(text.substr(from, end - from));
        from = end + 1;
    }
    return lines;
}

static std::string joined(const std::vector<std::string> &lines, const std::string &end = "\n") {
    std::string text;
    for (const std::string &line : lines) text += line + end;
    return text;
}

static char any_byte(Dice &dice) {
    static const std::string strangers = "\0\t\r\v\x7f\x80\xff-+.,/:@`{AS"s;
    static const std::string usual = "0123456789 \nsupplydemandcost";
    switch (dice.below(3)) {
    case 0: return dice.one_of(strangers);
    case 1: return dice.one_of(usual);
    default: return (char)dice.below(256);
    }
}

static std::string cut_text(Dice &dice) {
    std::string text = any_text(dice);
    size_t kept = dice.once_in(4) ? text.size() - 1 : dice.below(text.size());
    return text.substr(0, kept);
}

static std::string spliced_text(Dice &dice) {
    std::string first = any_text(dice), second = any_text(dice);
    first.resize(dice.below(first.size() + 1));
    return first + second.substr(dice.below(second.size() + 1));
}

// Of two sheets of one size, or nearly so. Spliced at one line, it may be a sheet text.
static std::string text_of_spliced_lines(Dice &dice) {
    Sheet first = any_sheet(dice), second = filled(dice, blank(first.m(), std::min(first.n() + dice.below(2), full)));
    std::vector<std::string> lines = lines_of(sheet_text(first)), others = lines_of(sheet_text(second));
    size_t place = dice.below(lines.size()), other = std::min(place + dice.one_of({0, 0, 1}), others.size());
    lines.resize(place);
    lines.insert(lines.end(), others.begin() + (long)other, others.end());
    return joined(lines);
}

static void edit_byte(Dice &dice, std::string &text) {
    size_t place = dice.below(text.size() + 1);
    size_t removed = place < text.size() && !dice.once_in(3) ? 1 : 0;
    size_t put = removed == 0 || !dice.once_in(3) ? 1 : 0;
    text.replace(place, removed, put, any_byte(dice));
}

static std::string edited_text(Dice &dice) {
    std::string text = any_text(dice);
    for (size_t edits = 1 + dice.below(3); edits > 0; edits--) edit_byte(dice, text);
    return text;
}

// A number that is odd in some way, also one that is still a number.
static std::string odd_number(Dice &dice, const std::string &number) {
    static const std::vector<std::string> fixed = {"", "0", "00", "1", "-0", "-1", "+1", "31", "32", "33", "1000000", "1000001", "9999999",
                                                   "0000001", "10000000", "99999999", "4294967297", "18446744073709551617", "1e3", "0x1",
                                                   "-1000000", "-1000001", "-4294967295", "-9223372036854775808"};
    static const std::vector<std::string> before = {"0", "00", "-", "+", " ", "1", "\t", "."};
    static const std::vector<std::string> after = {"0", "00000", " ", "\r", ".0", ",", "\t", "7"};
    switch (dice.below(4)) {
    case 0: return dice.one_of(before) + number;
    case 1: return number + dice.one_of(after);
    case 2: return std::to_string(std::strtoll(number.c_str(), nullptr, 10) + dice.between(-1, 1));
    default: return dice.one_of(fixed);
    }
}

// The number on the other side of 0; or a minus before a 0 or too many digits, doubled, alone, within the number or after it.
static std::string number_with_minus(Dice &dice, const std::string &number) {
    static const std::vector<std::string> fixed = {"-", "-0", "-00", "-1", "-9", "-1000000", "-1000001", "-9999999", "-10000000", "-99999999"};
    size_t within = dice.below(number.size() + 1);
    switch (dice.below(8)) {
    case 0: return dice.one_of(fixed);
    case 1: return "--" + number;
    case 2: return "-0" + number;
    case 3: return number + "-";
    case 4: return number.substr(0, within) + "-" + number.substr(within);
    case 5: return dice.one_of({"- ", "-+", "+", "-\n"}) + number;
    default: return number[0] == '-' ? number.substr(1) : "-" + number;
    }
}

static bool is_first_line(const std::string &line) { return line[0] > '9'; }

static std::string text_of_changed_counts(Dice &dice) {
    std::vector<std::string> lines = lines_of(any_text(dice));
    size_t changed = dice.below(3), section = 0;
    for (std::string &line : lines) {
        if (!is_first_line(line)) continue;
        size_t number = line.find(' ') + 1;
        if (section++ == changed) line = line.substr(0, number) + odd_number(dice, line.substr(number));
    }
    return joined(lines);
}

using ChangeNumber = std::string (*)(Dice &, const std::string &);

// Changes a number of the line, or its word.
static void change_number(Dice &dice, std::string &line, ChangeNumber changed) {
    std::vector<size_t> starts = {0};
    for (size_t k = 0; k < line.size(); k++)
        if (line[k] == ' ') starts.push_back(k + 1);
    size_t from = dice.one_of(starts), end = std::min(line.find(' ', from), line.size());
    line.replace(from, end - from, changed(dice, line.substr(from, end - from)));
}

static std::string text_of_odd_numbers(Dice &dice) {
    std::vector<std::string> lines = lines_of(any_text(dice));
    change_number(dice, dice.one_of(lines), odd_number);
    return joined(lines);
}

// Some texts end with the line, or with a minus.
std::string text_of_minuses(Dice &dice) {
    std::vector<std::string> lines = lines_of(any_text(dice));
    size_t costs = (size_t)(std::find_if(lines.rbegin(), lines.rend(), is_first_line) - lines.rbegin());
    size_t place = lines.size() - 1 - dice.below(dice.once_in(3) ? lines.size() : costs);
    change_number(dice, lines[place], number_with_minus);
    if (dice.once_in(4)) lines.resize(place + 1);
    std::string text = joined(lines);
    size_t last = text.rfind('-');
    if (last != std::string::npos && dice.once_in(8)) text.resize(last + 1);
    return text;
}

static std::string text_of_odd_lines(Dice &dice) {
    std::vector<std::string> lines = lines_of(any_text(dice));
    size_t place = dice.below(lines.size());
    std::string &line = lines[place];
    switch (dice.below(9)) {
    case 0: lines.erase(lines.begin() + (long)place); break;
    case 1: lines.insert(lines.begin() + (long)place, std::string(line)); break;
    case 2: std::swap(line, dice.one_of(lines)); break;
    case 3: lines.insert(lines.begin() + (long)place, std::string()); break;
    case 4: line += dice.one_of({" ", "\r", "\t", " 0", " 1", "\n"}); break;
    case 5: line.insert(0, dice.one_of({" ", "\t", "0 ", "1 ", "#"})); break;
    case 6: line[0] = (char)std::toupper(line[0]); break;
    case 7: return joined(lines, dice.one_of({"\r\n", "\r", "\n\n", " \n", " ", ""}));
    default: lines.resize(place);
    }
    return joined(lines);
}

// With the longest numbers, which for costs have a minus. Some are as the dice say, so that it may be refused by 3 or 4.
static std::string longest_text(Dice &dice) {
    Sheet sheet = blank(full, full);
    sheet.supply.assign(full, most);
    sheet.demand.assign(full, most);
    for (List &row : sheet.cost) row.assign(full, -most);
    if (dice.once_in(8)) dice.one_of(sheet.supply) = dice.between(most, seven_nines);
    if (dice.once_in(8)) dice.one_of(sheet.demand) = dice.between(most, seven_nines);
    if (dice.once_in(8)) dice.one_of(dice.one_of(sheet.cost)) = -dice.between(most, seven_nines);
    return sheet_text(sheet);
}

// The text again and again, or one byte, up to a random length.
static std::string lengthened(Dice &dice, const std::string &text) {
    std::string filler = dice.one_of({text, std::string(1, any_byte(dice))}), longer = text;
    size_t length = text.size() + dice.below(too_long - text.size() + 1);
    while (longer.size() < length) longer += filler;
    longer.resize(length);
    return longer;
}

// A sheet of more than 32 roasteries or cafés.
static std::string too_large_sheet(Dice &dice) {
    size_t large = full + 1 + dice.below(8), other = 1 + dice.below(full);
    Sheet sheet = dice.once_in(2) ? blank(large, other) : blank(other, large);
    random_costs(dice, sheet, most);
    return sheet_text(sheet);
}

static std::string long_text(Dice &dice) {
    std::string text = longest_text(dice);
    switch (dice.below(6)) {
    case 0: return text;
    case 1: return text + any_byte(dice);
    case 2: return lengthened(dice, text);
    case 3: return lengthened(dice, any_text(dice));
    case 4: return too_large_sheet(dice);
    default: edit_byte(dice, text); return text;
    }
}

// Bytes by chance after the beginning of a sheet text.
static std::string noise(Dice &dice) {
    std::string text = any_text(dice);
    text.resize(dice.below(std::min<size_t>(text.size(), 40)));
    for (size_t bytes = dice.below(dice.once_in(10) ? too_long : 40); bytes > 0; bytes--) text += any_byte(dice);
    return text;
}

const std::vector<TextKind> text_kinds = {
    {"small sheets", text_of<small_sheet>},
    {"sheets of many ties", text_of<sheet_of_ties>},
    {"degenerate sheets", text_of<degenerate_sheet>},
    {"sheets of summed or equal costs", text_of<sheet_of_summed_costs>},
    {"sheets of orderly costs", text_of<sheet_of_orderly_costs>},
    {"sheets of large numbers", text_of<sheet_of_large_numbers>},
    {"narrow sheets", text_of<narrow_sheet>},
    {"full sheets", text_of<full_sheet>},
    {"unequal sheets", text_of<unequal_sheet>},
    {"sheets of 31 or 32 cafés", text_of<sheet_of_many_cafes>},
    {"sheets of closed cafés", text_of<sheet_of_closed_cafes>},
    {"sheets at the limits", text_of<sheet_at_the_limits>},
    {"cut texts", cut_text},
    {"spliced texts", spliced_text},
    {"texts of spliced lines", text_of_spliced_lines},
    {"texts with edited bytes", edited_text},
    {"texts with changed counts", text_of_changed_counts},
    {"texts with odd numbers", text_of_odd_numbers},
    {"texts with a minus", text_of_minuses},
    {"texts with odd lines", text_of_odd_lines},
    {"long texts", long_text},
    {"noise", noise},
};

std::vector<std::string> pieces_of(Dice &dice, const std::string &text) {
    std::vector<std::string> pieces;
    std::string rest = text;
    for (size_t cuts = dice.once_in(6) ? 1 + dice.below(4) : 0; cuts > 0; cuts--) {
        size_t cut = dice.below(rest.size() + 1);
        pieces.push_back(rest.substr(0, cut));
        rest = rest.substr(cut);
    }
    pieces.push_back(rest);
    return pieces;
}
