/* Prints the stack that each call of the library and the program use. A call runs on a thread whose stack was filled with a mark; what is no longer the mark was
 * used. The count is with the call's arguments and result, and without what an empty thread uses. */
#define _XOPEN_SOURCE 700
#include "panel.h"

#include <pthread.h>
#include <stdio.h>
#include <stdlib.h>
#include <string.h>
#include <unistd.h>

enum { STACK = 1 << 20, MARK = 0x5a, SIDE = PANEL_MAX_SIDE, LANES = SIDE * SIDE, SHEET_TEXT = 9756, PLAN_TEXT = 1604 };

static uint64_t supply[SIDE], demand[SIDE], plan[LANES];
static size_t cafes;
static int64_t cost[LANES], u[SIDE], v[SIDE];
static uint8_t sheet_text[SHEET_TEXT], plan_text[PLAN_TEXT];
static size_t sheet_length;
static struct panel_tableau first, last;
static struct panel_standing standing;
static int refusal;

#define SHEET supply, SIDE, demand, cafes, cost, SIDE * cafes
#define SOLVED u, SIDE, v, SIDE, plan, LANES

static void nothing(void) { refusal = 0; }

static void start(void) {
    struct panel_start_result r = panel_start(SHEET);
    refusal = r.refusal;
    first = r.tableau;
}

static void round_(void) { refusal = panel_round(SHEET, first.cells, first.count).refusal; }

static void run(void) {
    struct panel_run_result r = panel_run(SHEET, first.cells, first.count, UINT32_MAX);
    refusal = r.refusal;
    last = r.tableau;
}

static void settle(void) { refusal = panel_settle(SHEET, last.cells, last.count, plan, LANES); }

static void solve(void) { refusal = panel_solve(SHEET, SOLVED).refusal; }

static void set_up(void) {
    struct panel_set_up_result r = panel_set_up(SHEET);
    refusal = r.refusal;
    standing = r.standing;
}

/* Both edits are of the standing sheet as it was set up. The first roastery and the first café
 * always have a bag. */
static void edit_cost(void) { refusal = panel_edit_cost(standing, 0, 0, -1000000, SOLVED).refusal; }

static void edit_amounts(void) {
    refusal = panel_edit_amounts(standing, 0, 0, supply[0] - 1, demand[0] - 1, SOLVED).refusal;
}

static void write_sheet(void) {
    struct panel_write_result r = panel_write_sheet(SHEET, sheet_text, SHEET_TEXT);
    refusal = r.refusal;
    sheet_length = r.length;
}

static void read_sheet(void) { refusal = panel_read_sheet(sheet_text, sheet_length, supply, SIDE, demand, SIDE, cost, LANES).refusal; }

static void write_plan(void) { refusal = panel_write_plan(SHEET, plan_text, PLAN_TEXT).refusal; }

/* The main function of the program, under another name. It reads the sheet text, and prints a plan text, which begins with `total`. */
int program_main(void);

static void program(void) {
    char first = 0;
    program_main();
    refusal = pread(STDOUT_FILENO, &first, 1, 0) != 1 || first != 't';
}

/* In an order in which each has what it needs. */
static const struct {
    const char *name;
    void (*make)(void);
} calls[] = {
    {"start", start},           {"round", round_},              {"run", run},
    {"settle", settle},         {"solve", solve},               {"set up", set_up},
    {"edit cost", edit_cost},   {"edit amounts", edit_amounts}, {"write sheet", write_sheet},
    {"read sheet", read_sheet}, {"write plan", write_plan},     {"the program", program},
};
enum { CALLS = sizeof calls / sizeof *calls };

static void (*to_make)(void);

static void *thread(void *unused) {
    to_make();
    return unused;
}

static size_t stack_of(void (*make)(void)) {
    static unsigned char *stack;
    if (stack == NULL && posix_memalign((void **)&stack, 4096, STACK) != 0) abort();
    memset(stack, MARK, STACK);
    pthread_attr_t attr;
    pthread_t id;
    to_make = make;
    if (pthread_attr_init(&attr) != 0 || pthread_attr_setstack(&attr, stack, STACK) != 0) abort();
    if (pthread_create(&id, &attr, thread, NULL) != 0 || pthread_join(id, NULL) != 0) abort();
    pthread_attr_destroy(&attr);
    size_t kept = 0;
    while (stack[kept] == MARK) kept++;
    return STACK - kept;
}

/* The largest sheet, with costs from -`top` to `top` and bags up to `bags`: balanced, or without its last café and so with a surplus; perhaps with parties
 * at 0. */
static void make_sheet(uint32_t top, uint32_t bags, int surplus, int zeros) {
    uint32_t seed = 1;
    cafes = surplus ? SIDE - 1 : SIDE;
    for (size_t k = 0; k < LANES; k++) {
        seed = seed * 1664525u + 1013904223u;
        cost[k] = (int64_t)((seed >> 8) % (2 * top + 1)) - top;
    }
    for (size_t k = 0; k < SIDE; k++) {
        seed = seed * 1664525u + 1013904223u;
        supply[k] = demand[SIDE - 1 - k] = zeros && k % 4 == 1 ? 0 : 1 + (seed >> 8) % bags;
    }
}

static void put_file(int stream) {
    FILE *file = tmpfile();
    if (file == NULL || dup2(fileno(file), stream) < 0) abort();
}

/* Puts the sheet text on the standard input, and empties the standard output; both are files. */
static void lend_streams(void) {
    if (ftruncate(STDIN_FILENO, 0) != 0 || pwrite(STDIN_FILENO, sheet_text, sheet_length, 0) != (ssize_t)sheet_length) abort();
    if (ftruncate(STDOUT_FILENO, 0) != 0) abort();
    if (lseek(STDIN_FILENO, 0, SEEK_SET) != 0 || lseek(STDOUT_FILENO, 0, SEEK_SET) != 0) abort();
}

int main(void) {
    int out = dup(STDOUT_FILENO);
    put_file(STDIN_FILENO);
    put_file(STDOUT_FILENO);
    static const uint32_t tops[] = {1000000, 1000, 3, 0}, bags[] = {1000000, 1000, 5, 1};
    size_t most[CALLS] = {0};
    int failed = 0;
    for (size_t s = 0; s < 4 * sizeof tops / sizeof *tops; s++) {
        make_sheet(tops[s / 4], bags[s / 4], s % 2, s / 2 % 2);
        size_t empty = stack_of(nothing);
        for (size_t k = 0; k < CALLS; k++) {
            lend_streams();
            size_t used = stack_of(calls[k].make) - empty;
            if (used > most[k]) most[k] = used;
            if (refusal != 0) {
                fprintf(stderr, "%s: refused %d\n", calls[k].name, refusal);
                failed = 1;
            }
        }
    }
    if (dup2(out, STDOUT_FILENO) < 0) abort();
    for (size_t k = 0; k < CALLS; k++) printf("stack of %s: %zu bytes\n", calls[k].name, most[k]);
    return failed;
}
