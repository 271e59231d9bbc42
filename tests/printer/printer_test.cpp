// Holds the panel's printer of numbers (crate printer) to the C library's: at the ends of 64 bits, around each power of ten and of two, and on random numbers of
// each length. Each number is printed in an output that has just room for it, in a longer one and in one that is a byte too short, and the other bytes are kept.
#include <cinttypes>
#include <cstdio>
#include <cstring>
#include <random>
#include <string>

extern "C" {
size_t printer_whole(int64_t z, uint8_t *out, size_t len);
size_t printer_number(uint64_t n, uint8_t *out, size_t len);
}

const uint8_t mark = 0x5a;
enum { SPARE = 8, ROOM = 64 };

static std::string expected(int64_t z) {
    char text[ROOM];
    return {text, (size_t)snprintf(text, sizeof text, "%" PRId64, z)};
}

static std::string expected(uint64_t n) {
    char text[ROOM];
    return {text, (size_t)snprintf(text, sizeof text, "%" PRIu64, n)};
}

static size_t print(int64_t z, uint8_t *out, size_t len) { return printer_whole(z, out, len); }
static size_t print(uint64_t n, uint8_t *out, size_t len) { return printer_number(n, out, len); }

// Whether a number is printed as `text` in an output of `len` bytes, and no byte is written beside it.
template <class Number> static bool prints(Number x, const std::string &text, size_t len) {
    uint8_t out[ROOM], after[ROOM];
    memset(out, mark, sizeof out);
    memset(after, mark, sizeof after);
    memcpy(after, text.data(), text.size());
    return print(x, out, len) == text.size() && memcmp(out, after, sizeof out) == 0;
}

template <class Number> static bool right(Number x) {
    std::string text = expected(x);
    bool good = prints(x, text, text.size()) && prints(x, text, text.size() + SPARE) && prints(x, "", text.size() - 1) && prints(x, "", 0);
    if (!good) printf("wrong: %s\n", text.c_str());
    return good;
}

// A number of 64 bits, read as unsigned and as signed, and what is next to it and opposite.
static bool around(uint64_t n) {
    bool good = true;
    for (uint64_t x : {n - 1, n, n + 1, 0 - n, 1 - n, 0 - n - 1}) good &= right(x) & right((int64_t)x);
    return good;
}

static int passed, failed;

static void test(const char *name, bool good) {
    (good ? passed : failed)++;
    if (!good) printf("failed: %s\n", name);
}

int main() {
    test("the least number of 64 bits", right(INT64_MIN) && expected(INT64_MIN) == "-9223372036854775808");
    test("the greatest signed and unsigned one", right(INT64_MAX) && right(UINT64_MAX) && expected(UINT64_MAX) == "18446744073709551615");
    bool tens = true, twos = true, random = true;
    uint64_t ten = 1;
    for (int digits = 1; digits <= 20; digits++, ten *= 10) tens &= around(ten);
    for (int bits = 0; bits < 64; bits++) twos &= around(uint64_t{1} << bits);
    std::mt19937_64 rng(3);
    for (int k = 0; k < 1 << 20; k++) {
        uint64_t x = rng() >> (k % 64);
        random &= right(x) & right((int64_t)x) & right((int64_t)(0 - x));
    }
    test("around each power of ten", tens);
    test("around each power of two", twos);
    test("random numbers of each length", random);
    printf("%d passed, %d failed\n", passed, failed);
    return failed != 0;
}
