/* Reads a sheet text from standard input and prints the cheapest plan, or why there is none. Needs nothing but panel.h and the library:
 *
 *     gcc -std=c99 -O2 -Icrates/exports -o target/plan examples/plan.c target/staticlib/libexports.a
 *     target/plan < examples/island.sheet
 *
 * Exits with 0 for a plan, 1 for a refusal and 2 if reading or writing fails. */
#include "panel.h"

#include <inttypes.h>
#include <stdio.h>

enum { LONGEST_TEXT = 9756, MAX_LANES = PANEL_MAX_SIDE * PANEL_MAX_SIDE };

static const char *const names[] = {
    [PANEL_SIDES] = "no roastery or café, or more than 32",
    [PANEL_COST_COUNT] = "the costs are not as many as the lanes",
    [PANEL_AMOUNT] = "a supply or demand is above 1,000,000",
    [PANEL_COST] = "a cost is outside -1,000,000 to 1,000,000",
    [PANEL_LACKING] = "total demand is greater than total supply",
    [PANEL_FOREIGN_TABLEAU] = "the tableau does not belong to the sheet",
    [PANEL_UNFINISHED] = "the tableau is not finished",
    [PANEL_ROOM] = "a lent list is too short",
    [PANEL_NOT_SHEET_TEXT] = "not a sheet text",
    [PANEL_CROWDED] = "total supply is greater than total demand, with 32 cafés",
    [PANEL_IDLE] = "total demand is 0",
};

int main(void) {
    /* One byte more than the longest text, so that a text that is too long is refused and not cut. */
    uint8_t text[LONGEST_TEXT + 1];
    size_t length = fread(text, 1, sizeof text, stdin);
    if (ferror(stdin)) {
        fputs("plan: cannot read standard input\n", stderr);
        return 2;
    }

    /* Lists for the largest sheet: with these, no call refuses with PANEL_ROOM. Rooms are counted in places, not in bytes. */
    uint64_t supply[PANEL_MAX_SIDE], demand[PANEL_MAX_SIDE];
    int64_t cost[MAX_LANES];
    struct panel_read_result sheet = panel_read_sheet(text, length, supply, PANEL_MAX_SIDE, demand, PANEL_MAX_SIDE, cost, MAX_LANES);
    if (sheet.refusal == PANEL_NOT_SHEET_TEXT) {
        printf("refused: %s, after %zu bytes\n", names[sheet.refusal], sheet.place);
        return 1;
    }
    if (sheet.refusal != PANEL_DONE) {
        printf("refused: %s\n", names[sheet.refusal]);
        return 1;
    }

    size_t m = sheet.sources, n = sheet.sinks;
    int64_t u[PANEL_MAX_SIDE], v[PANEL_MAX_SIDE];
    uint64_t plan[MAX_LANES];
    struct panel_solve_result solved = panel_solve(supply, m, demand, n, cost, m * n, u, PANEL_MAX_SIDE, v, PANEL_MAX_SIDE, plan, MAX_LANES);
    if (solved.refusal != PANEL_DONE) { /* never after reading: reading makes the same checks */
        printf("refused: %s\n", names[solved.refusal]);
        return 1;
    }

    printf("cost %" PRId64 ", rounds %" PRIu64 "\n", solved.cost, solved.rounds);
    for (size_t i = 0; i < m; i++)
        for (size_t j = 0; j < n; j++) {
            uint64_t bags = plan[i * n + j];
            if (bags > 0) printf("roastery %zu, café %zu: %" PRIu64 "\n", i + 1, j + 1, bags);
        }
    if (fflush(stdout) != 0 || ferror(stdout)) {
        fputs("plan: cannot write standard output\n", stderr);
        return 2;
    }
    return 0;
}
