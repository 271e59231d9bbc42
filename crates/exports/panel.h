/* The calls of the bag plan panel for programs in C and C++: link target/staticlib/libexports.a (tools/build exports). docs/EMBEDDING.md says how.
 *
 * A list is a pointer and a length. Rows (roasteries) and columns (cafés) count from 0; costs and plans are in sheet order, row by row. Amounts are in bags,
 * and 0 where a café is closed or a roastery has nothing; costs and prices are in cents a bag; a lane that earns money has a cost below 0, and so may a whole
 * plan. What each call gives is proved; that what is lent is as follows, nothing checks:
 * - every list is readable, and every list that is not const writable, over its whole length, and aligned as its type is;
 * - no list that is not const overlaps another list of the same call;
 * - a list of length 0 may have any pointer that is aligned and not null.
 * The calls keep no state, allocate nothing and may run in any number of threads. A call that refuses changes nothing that was lent to it. */
#ifndef PANEL_H
#define PANEL_H

#include <stdbool.h>
#include <stddef.h>
#include <stdint.h>

#ifdef __cplusplus
extern "C" {
#endif

/* Why a call refuses. */
enum panel_refusal {
    PANEL_DONE = 0,            /* it does not */
    PANEL_SIDES = 1,           /* no source or sink, or more than 32 */
    PANEL_COST_COUNT = 2,      /* the costs are not as many as the lanes */
    PANEL_AMOUNT = 3,          /* a supply or demand is above 1,000,000 */
    PANEL_COST = 4,            /* a cost is outside −1,000,000 to 1,000,000 */
    PANEL_LACKING = 5,         /* total demand is greater than total supply */
    PANEL_FOREIGN_TABLEAU = 6, /* the tableau does not belong to the sheet */
    PANEL_UNFINISHED = 7,      /* the tableau is not finished */
    PANEL_ROOM = 8,            /* a lent list or output is too short */
    PANEL_NOT_SHEET_TEXT = 9,  /* the text is not a sheet text */
    PANEL_CROWDED = 10,        /* total supply is greater than total demand, and there are 32 sinks: no room for the extra café */
    PANEL_IDLE = 11,           /* total demand is 0 */
    PANEL_BAD_EDIT = 12        /* an edit names a roastery or café not on the sheet, or the counter is at its largest value */
};

enum { PANEL_MAX_SIDE = 32, PANEL_MAX_LANES = 1024, PANEL_MAX_CELLS = 63 };

/* A paired amount: q bags and e marks. */
struct panel_pair {
    int64_t q, e;
};

struct panel_cell {
    size_t row, col;
    struct panel_pair amount;
};

/* A tableau that a call gives: its first `count` cells, in sheet order; the rest are zeros. It covers the parties left, those whose amount is not 0, under
 * their own numbers: rows and columns are those of the sheet, and there is one cell fewer than parties left. Where there is a surplus, more supply than demand,
 * an extra café takes it at cost 0: it is column n, after the cafés of the sheet, and a party left. Nothing but tableaux shows it.
 * A call takes a tableau as a list of cells, which may be of any length and have any cells: where they are not those of a tableau that belongs to the sheet, it
 * refuses with 6. */
struct panel_tableau {
    struct panel_cell cells[PANEL_MAX_CELLS];
    size_t count;
};

/* A sheet by value: m supplies, n demands, and m × n costs in sheet order, at the fronts of the
 * arrays. */
struct panel_sheet {
    size_t m, n;
    uint64_t supply[PANEL_MAX_SIDE], demand[PANEL_MAX_SIDE];
    int64_t cost[PANEL_MAX_LANES];
};

/* A standing sheet: a sheet with its finished tableau, and the count of accepted edits. The program
 * keeps it, and may copy and store it. Any bytes may be handed to a call: it checks them first, as
 * panel_settle checks sheet and tableau. */
struct panel_standing {
    struct panel_sheet sheet;
    struct panel_tableau tableau;
    uint64_t counter;
};

/* In every result `refusal` is 0, or a number of enum panel_refusal; then the other fields are zeros,
 * but for the place with 9, and for the standing sheet of an edit, which is then given back as it was. */

struct panel_start_result {
    uint8_t refusal;
    struct panel_tableau tableau;
};

/* The next tableau; or, where the one given is finished, no tableau but its prices, m in u and n in v, also those of parties whose amount is 0; that of the
 * extra café is not among them. */
struct panel_round_result {
    uint8_t refusal;
    bool finished;
    struct panel_tableau tableau;
    int64_t u[PANEL_MAX_SIDE], v[PANEL_MAX_SIDE];
};

struct panel_run_result {
    uint8_t refusal;
    bool finished;
    uint64_t rounds;
    struct panel_tableau tableau;
};

struct panel_solve_result {
    uint8_t refusal;
    int64_t cost;
    uint64_t rounds;
};

struct panel_read_result {
    uint8_t refusal;
    size_t sources, sinks, place;
};

struct panel_write_result {
    uint8_t refusal;
    size_t length;
};

struct panel_set_up_result {
    uint8_t refusal;
    struct panel_standing standing;
};

/* The cost of the plan, the rounds that the edit made, and the standing sheet after it. */
struct panel_edit_result {
    uint8_t refusal;
    int64_t cost;
    uint64_t rounds;
    struct panel_standing after;
};

/* The first tableau. */
struct panel_start_result panel_start(const uint64_t *supply, size_t m, const uint64_t *demand, size_t n, const int64_t *cost, size_t lanes);

/* One round. */
struct panel_round_result panel_round(const uint64_t *supply, size_t m, const uint64_t *demand, size_t n, const int64_t *cost, size_t lanes,
                                      const struct panel_cell *cells, size_t count);

/* At most so many rounds: finished, or spent after just so many. */
struct panel_run_result panel_run(const uint64_t *supply, size_t m, const uint64_t *demand, size_t n, const int64_t *cost, size_t lanes,
                                  const struct panel_cell *cells, size_t count, uint32_t allowance);

/* The settled plan of a finished tableau: m × n quantities at the front of `plan`. What a source does not send stays there. */
uint8_t panel_settle(const uint64_t *supply, size_t m, const uint64_t *demand, size_t n, const int64_t *cost, size_t lanes,
                     const struct panel_cell *cells, size_t count, uint64_t *plan, size_t plan_room);

/* The cheapest plan: m and n prices and m × n quantities at the fronts of u, v and plan. */
struct panel_solve_result panel_solve(const uint64_t *supply, size_t m, const uint64_t *demand, size_t n, const int64_t *cost, size_t lanes, int64_t *u,
                                      size_t u_room, int64_t *v, size_t v_room, uint64_t *plan, size_t plan_room);

/* The standing sheet of a sheet, with its finished tableau; no edit is counted yet. */
struct panel_set_up_result panel_set_up(const uint64_t *supply, size_t m, const uint64_t *demand, size_t n, const int64_t *cost, size_t lanes);

/* An edit of a standing sheet. If `amounts` is false, it sets the cost of the lane from source `row` to
 * sink `col`, and goes on from the kept tableau; `supply` and `demand` are not looked at. If it is true,
 * it sets the supply of `row` and the demand of `col`, and begins afresh; `cost` is not looked at. The
 * lists are filled with prices and plan of the edited sheet, as by panel_solve. */
struct panel_edit_result panel_edit(struct panel_standing standing, size_t row, size_t col, bool amounts, int64_t cost, uint64_t supply,
                                    uint64_t demand, int64_t *u, size_t u_room, int64_t *v, size_t v_room, uint64_t *plan, size_t plan_room);

static inline struct panel_edit_result panel_edit_cost(struct panel_standing standing, size_t row, size_t col, int64_t cost, int64_t *u, size_t u_room,
                                                       int64_t *v, size_t v_room, uint64_t *plan, size_t plan_room) {
    return panel_edit(standing, row, col, false, cost, 0, 0, u, u_room, v, v_room, plan, plan_room);
}

static inline struct panel_edit_result panel_edit_amounts(struct panel_standing standing, size_t row, size_t col, uint64_t supply, uint64_t demand,
                                                          int64_t *u, size_t u_room, int64_t *v, size_t v_room, uint64_t *plan, size_t plan_room) {
    return panel_edit(standing, row, col, true, 0, supply, demand, u, u_room, v, v_room, plan, plan_room);
}

/* The sheet of a sheet text, at the fronts of the three lists; 32, 32 and 1,024 places are always enough. */
struct panel_read_result panel_read_sheet(const uint8_t *text, size_t length, uint64_t *supply, size_t supply_room, uint64_t *demand, size_t demand_room,
                                          int64_t *cost, size_t cost_room);

/* The sheet text of a sheet; 9,756 bytes are always enough. */
struct panel_write_result panel_write_sheet(const uint64_t *supply, size_t m, const uint64_t *demand, size_t n, const int64_t *cost, size_t lanes,
                                            uint8_t *out, size_t room);

/* The plan text of a sheet; 1,604 bytes are always enough. */
struct panel_write_result panel_write_plan(const uint64_t *supply, size_t m, const uint64_t *demand, size_t n, const int64_t *cost, size_t lanes,
                                           uint8_t *out, size_t room);

#ifdef __cplusplus
}
#endif

#endif
