//! Phone orders (paper 02, Five): what set up and edits give, what then stands, and what they
//! refuse.
mod common;
use common::{both_signs, cell, closed, dear, earns, first_empty, half_closed, largest, largest_with_surplus};
use common::{last_closed, p1, p1_last, p3, p4, p6, p8, sheet, wide, MARK, SIGNED_MARK};
use panel::{edit_amounts, edit_cost, set_up, Cell, Pair, Refusal, Sheet, Solution, Solved, Standing, Tableau};
use panel::{MAX_LANES, MAX_SIDE};

/// What an edit sets: the cost of a lane, or a supply and a demand.
#[derive(Clone, Copy, Debug)]
enum Change {
    Cost(i64),
    Amounts(u64, u64),
}
use Change::{Amounts, Cost};

/// An edit of a roastery and a café, both from 0.
#[derive(Clone, Copy, Debug)]
struct Edit {
    row: usize,
    col: usize,
    change: Change,
}

/// An edit as the paper names it: roastery and café from 1.
fn edit(roastery: usize, cafe: usize, change: Change) -> Edit {
    Edit { row: roastery - 1, col: cafe - 1, change }
}

impl Edit {
    /// Makes the call that gives an owned solution.
    fn make(self, standing: &mut Standing) -> Result<Solution, Refusal> {
        match self.change {
            Cost(cost) => standing.set_cost(self.row, self.col, cost),
            Amounts(supply, demand) => standing.set_amounts(self.row, self.col, supply, demand),
        }
    }

    /// Makes the call on lent lists.
    fn lend(self, to: &mut Standing, u: &mut [i64], v: &mut [i64], plan: &mut [u64]) -> Result<Solved, Refusal> {
        match self.change {
            Cost(cost) => edit_cost(to, self.row, self.col, cost, u, v, plan),
            Amounts(supply, demand) => edit_amounts(to, self.row, self.col, supply, demand, u, v, plan),
        }
    }

    /// The edited sheet.
    fn edited(self, mut sheet: Sheet) -> Sheet {
        match self.change {
            Cost(cost) => sheet.cost[self.row * sheet.demand.len() + self.col] = cost,
            Amounts(supply, demand) => (sheet.supply[self.row], sheet.demand[self.col]) = (supply, demand),
        }
        sheet
    }
}

/// P1's sheet, set up.
fn stands() -> Standing {
    p1().set_up().unwrap()
}

/// P1's sheet stands, but for what is changed.
fn changed(change: impl FnOnce(&mut Standing)) -> Standing {
    let mut standing = stands();
    change(&mut standing);
    standing
}

/// The first roastery is dear, the second café is closed, and there is a surplus of two bags.
fn dear_closed() -> Sheet {
    sheet(&[3, 3], &[4, 0], &[5, 2, 1, 2])
}

/// The list, and zeros after it.
fn padded<Number: Copy + Default, const N: usize>(list: &[Number]) -> [Number; N] {
    std::array::from_fn(|k| list.get(k).copied().unwrap_or_default())
}

/// The tableau of these cells.
fn tableau(cells: &[Cell]) -> Tableau {
    Tableau { cells: padded(cells), count: cells.len() }
}

/// The sheet stands with this tableau, after so many edits; zeros stand behind its lists.
#[track_caller]
fn stands_as(standing: &Standing, sheet: &Sheet, cells: &[Cell], counter: u64) {
    assert_eq!((standing.sheet.m, standing.sheet.n), (sheet.supply.len(), sheet.demand.len()));
    assert_eq!(standing.sheet.supply, padded(&sheet.supply));
    assert_eq!(standing.sheet.demand, padded(&sheet.demand));
    assert_eq!(standing.sheet.cost, padded(&sheet.cost));
    assert_eq!((standing.tableau, standing.counter), (tableau(cells), counter));
}

// ---- set up

#[test]
fn what_is_set_up() {
    stands_as(&stands(), &p1(), &p1_last(), 0);
    let last = [cell(1, 1, 1, -1), cell(1, 3, 2, 2), cell(2, 1, 3, 1)];
    stands_as(&dear_closed().set_up().unwrap(), &dear_closed(), &last, 0);
    stands_as(&p6().set_up().unwrap(), &p6(), &[cell(1, 1, 1, 1)], 0);
    assert_eq!(Standing::set_up(&[3, 4], &[5, 2], &[4, 1, 2, 6]), Ok(stands()));
    assert_eq!(set_up(&[3, 4], &[5, 2], &[4, 1, 2, 6]), Ok(stands()));
}

/// The tableau of solve's last round stands.
#[test]
fn set_up_runs_from_the_start() {
    for sheet in sheets() {
        let run = sheet.run(&sheet.start().unwrap(), u32::MAX).unwrap();
        stands_as(&sheet.set_up().unwrap(), &sheet, &run.tableau, 0);
    }
}

#[test]
fn set_up_refuses_as_solve() {
    for (sheet, refusal) in [
        (sheet(&[], &[2], &[]), Refusal::Sides),
        (sheet(&[1; 33], &[33], &[0; 33]), Refusal::Sides),
        (sheet(&[3, 4], &[5, 2], &[4, 1, 2]), Refusal::CostCount),
        (sheet(&[1_000_001], &[2], &[0]), Refusal::Amount),
        (sheet(&[2], &[3], &[-1_000_001]), Refusal::Cost),
        (sheet(&[2], &[3], &[0]), Refusal::Lacking),
        (wide(40, 32), Refusal::Crowded),
        (sheet(&[3], &[0], &[0]), Refusal::Idle),
    ] {
        assert_eq!((sheet.set_up(), sheet.solve()), (Err(refusal), Err(refusal)));
    }
}

// ---- accepted edits

/// What an accepted edit gives, owned and in lent lists with a mark before and after each. All but
/// the rounds is what solve gives for the edited sheet, and the edit is counted.
#[track_caller]
fn accepted(standing: &mut Standing, edit: Edit) -> Solution {
    let before = *standing;
    let edited = edit.edited(Sheet::from(&before.sheet));
    let given = edit.make(standing).unwrap();
    assert_eq!(given, Solution { rounds: given.rounds, ..edited.solve().unwrap() }, "{edit:?}");
    assert_eq!((Sheet::from(&standing.sheet), standing.counter), (edited, before.counter + 1), "{edit:?}");

    let (m, n) = (given.u.len(), given.v.len());
    let (mut u, mut v) = (vec![SIGNED_MARK; m + 2], vec![SIGNED_MARK; n + 2]);
    let mut plan = vec![MARK; m * n + 2];
    let mut lent = before;
    let solved = edit.lend(&mut lent, &mut u[1..], &mut v[1..], &mut plan[1..]);
    assert_eq!(solved, Ok(Solved { cost: given.cost, rounds: given.rounds }));
    assert!(lent == *standing);
    let signed = |list: &[i64]| [&[SIGNED_MARK], list, &[SIGNED_MARK]].concat();
    assert_eq!((u, v, plan), (signed(&given.u), signed(&given.v), [&[MARK], &*given.plan, &[MARK]].concat()));
    given
}

/// What an edit of a standing sheet gives; the tableau that then stands settles to the plan.
#[track_caller]
fn gives(mut standing: Standing, edit: Edit, cost: i64, rounds: u64, u: &[i64], v: &[i64], plan: &[u64]) -> Standing {
    let given = accepted(&mut standing, edit);
    assert_eq!((given.cost, given.rounds), (cost, rounds));
    assert_eq!((&*given.u, &*given.v, &*given.plan), (u, v, plan));
    assert_eq!(Sheet::from(&standing.sheet).settle(&standing.tableau), Ok(given.plan));
    standing
}

/// One round from the kept tableau, where the edited sheet from nothing takes none.
#[test]
fn a_cost_edit_goes_on_from_the_kept_tableau() {
    let nine = edit(1, 2, Cost(9));
    let after = gives(stands(), nine, 28, 1, &[0, -2], &[4, 8], &[3, 0, 2, 2]);
    assert_eq!(nine.edited(p1()).solve().unwrap().rounds, 0);
    stands_as(&after, &nine.edited(p1()), &p1().start().unwrap(), 1);
    // And back, which takes a round again.
    let back = gives(after, edit(1, 2, Cost(1)), 14, 1, &[0, -2], &[4, 1], &[1, 2, 4, 0]);
    assert_eq!(back, changed(|s| s.counter = 2));
}

#[test]
fn an_edit_that_changes_nothing_is_counted() {
    let seven = changed(|s| s.counter = 7);
    let eight = gives(seven, edit(1, 2, Cost(1)), 14, 0, &[0, -2], &[4, 1], &[1, 2, 4, 0]);
    assert_eq!(eight, changed(|s| s.counter = 8));
    let nine = gives(eight, edit(2, 1, Amounts(4, 5)), 14, 1, &[0, -2], &[4, 1], &[1, 2, 4, 0]);
    assert_eq!(nine, changed(|s| s.counter = 9));
}

/// With a bag more on both sides, with a surplus, and with a café that closes.
#[test]
fn an_amounts_edit_begins_afresh() {
    gives(stands(), edit(1, 1, Amounts(4, 6)), 18, 1, &[0, -2], &[4, 1], &[2, 2, 4, 0]);
    let surplus = edit(2, 2, Amounts(5, 2));
    let after = gives(stands(), surplus, 12, 2, &[0, 0], &[2, 1], &[0, 2, 5, 0]);
    let last = [cell(1, 2, 2, 0), cell(1, 3, 1, 1), cell(2, 1, 5, 0), cell(2, 3, 0, 1)];
    stands_as(&after, &surplus.edited(p1()), &last, 1);
    let closes = edit(1, 2, Amounts(1, 0));
    let after = gives(stands(), closes, 12, 0, &[0, -2], &[4, 1], &[1, 0, 4, 0]);
    stands_as(&after, &closes.edited(p1()), &[cell(1, 1, 1, 1), cell(2, 1, 4, 1)], 1);
}

/// A lane of the parties left, one of the closed café, which moves its price alone, and the café
/// opened.
#[test]
fn with_an_extra_cafe_and_a_closed_one() {
    let stands = dear_closed().set_up().unwrap();
    gives(stands, edit(1, 1, Cost(0)), 1, 1, &[0, 1], &[0, 1], &[3, 0, 1, 0]);
    let after = gives(stands, edit(1, 2, Cost(-9)), 8, 0, &[0, -4], &[5, -9], &[1, 0, 3, 0]);
    assert_eq!(after.tableau, stands.tableau);
    gives(stands, edit(2, 2, Amounts(3, 2)), 12, 1, &[0, -4], &[5, 2], &[1, 2, 3, 0]);
}

#[test]
fn the_ends_of_the_limits() {
    let one = p6().set_up().unwrap();
    gives(one, edit(1, 1, Cost(-1_000_000)), -1_000_000, 0, &[0], &[-1_000_000], &[1]);
    let bags = gives(one, edit(1, 1, Amounts(1_000_000, 1_000_000)), 0, 0, &[0], &[0], &[1_000_000]);
    gives(bags, edit(1, 1, Cost(1_000_000)), 1_000_000_000_000, 0, &[0], &[1_000_000], &[1_000_000]);
    gives(one, edit(1, 1, Amounts(1_000_000, 1)), 0, 0, &[0], &[0], &[1]);
    // The last lane, and the last parties, of the largest sheet.
    let mut large = largest().set_up().unwrap();
    accepted(&mut large, edit(32, 32, Cost(-1_000_000)));
    accepted(&mut large, edit(32, 32, Amounts(999_999, 999_999)));
    assert_eq!((large.sheet.cost[MAX_LANES - 1], large.sheet.supply[31], large.counter), (-1_000_000, 999_999, 2));
}

#[test]
fn the_last_count() {
    let mut last_but_one = changed(|s| s.counter = u64::MAX - 1);
    accepted(&mut last_but_one, edit(1, 2, Cost(1)));
    assert_eq!(last_but_one, changed(|s| s.counter = u64::MAX));
    refused(&last_but_one, edit(1, 2, Cost(1)), Refusal::BadEdit);
}

// ---- refused edits

/// An edit that is refused alike whatever room there is. Nothing changes.
#[track_caller]
fn refused(standing: &Standing, edit: Edit, refusal: Refusal) {
    let mut owned = *standing;
    assert_eq!(edit.make(&mut owned), Err(refusal), "{edit:?} of {standing:?}");
    assert!(owned == *standing);
    for room in [0, 1, MAX_LANES] {
        refused_in(standing, edit, [room; 3], refusal);
    }
}

/// An edit that is refused with lists of these lengths. Nothing changes.
#[track_caller]
fn refused_in(standing: &Standing, edit: Edit, rooms: [usize; 3], refusal: Refusal) {
    let mut lent = *standing;
    let (mut u, mut v) = (vec![SIGNED_MARK; rooms[0]], vec![SIGNED_MARK; rooms[1]]);
    let mut plan = vec![MARK; rooms[2]];
    assert_eq!(edit.lend(&mut lent, &mut u, &mut v, &mut plan), Err(refusal), "{edit:?} of {standing:?}");
    assert!(lent == *standing);
    assert!(u.iter().chain(&v).all(|&price| price == SIGNED_MARK) && plan.iter().all(|&bags| bags == MARK));
}

#[test]
fn refused_as_solve_refuses_the_edited_sheet() {
    refused(&stands(), edit(1, 1, Amounts(1_000_001, 9)), Refusal::Amount);
    refused(&stands(), edit(1, 1, Amounts(3, 1_000_001)), Refusal::Amount);
    refused(&stands(), edit(2, 2, Amounts(u64::MAX, u64::MAX)), Refusal::Amount);
    for cost in [1_000_001, -1_000_001, 1 << 32, i64::MAX, i64::MIN] {
        refused(&stands(), edit(1, 1, Cost(cost)), Refusal::Cost);
    }
    refused(&stands(), edit(1, 1, Amounts(3, 6)), Refusal::Lacking);
    refused(&stands(), edit(1, 1, Amounts(2, 5)), Refusal::Lacking);
    refused(&p6().set_up().unwrap(), edit(1, 1, Amounts(0, 1)), Refusal::Lacking);
    refused(&wide(32, 32).set_up().unwrap(), edit(1, 1, Amounts(33, 1)), Refusal::Crowded);
    refused(&wide(32, 32).set_up().unwrap(), edit(1, 32, Amounts(32, 0)), Refusal::Crowded);
    refused(&p6().set_up().unwrap(), edit(1, 1, Amounts(1, 0)), Refusal::Idle);
    refused(&p6().set_up().unwrap(), edit(1, 1, Amounts(0, 0)), Refusal::Idle);
}

#[test]
fn refused_8() {
    for edit in [edit(1, 1, Cost(1)), edit(2, 2, Amounts(5, 3))] {
        for rooms in [[1, 2, 4], [2, 1, 4], [2, 2, 3], [0, 2, 4], [2, 0, 4], [2, 2, 0], [0; 3]] {
            refused_in(&stands(), edit, rooms, Refusal::Room);
        }
        let (mut u, mut v, mut plan) = ([0; 2], [0; 2], [0; 4]);
        assert!(edit.lend(&mut stands(), &mut u, &mut v, &mut plan).is_ok());
    }
}

/// Before all that is refused of the edited sheet.
#[test]
fn refused_12() {
    let changes = [Cost(1), Cost(1_000_001), Amounts(4, 6), Amounts(1, 9), Amounts(u64::MAX, 0)];
    let off = [2, 3, 31, 32, 33, 1 << 32, 1 << 63, (1 << 63) + 1, usize::MAX];
    for change in changes {
        for far in off {
            refused(&stands(), Edit { row: far, col: 0, change }, Refusal::BadEdit);
            refused(&stands(), Edit { row: 1, col: far, change }, Refusal::BadEdit);
            refused(&stands(), Edit { row: far, col: far, change }, Refusal::BadEdit);
        }
        // The counter, and both.
        let full = changed(|s| s.counter = u64::MAX);
        refused(&full, edit(1, 1, change), Refusal::BadEdit);
        refused(&full, edit(3, 1, change), Refusal::BadEdit);
        // The extra café is not on the sheet.
        refused(&dear_closed().set_up().unwrap(), edit(1, 3, change), Refusal::BadEdit);
        refused(&dear().set_up().unwrap(), edit(1, 2, change), Refusal::BadEdit);
    }
    // (1,3) would stand in the place of (2,1).
    refused(&stands(), edit(1, 3, Cost(2)), Refusal::BadEdit);
    refused(&largest().set_up().unwrap(), edit(33, 1, Cost(2)), Refusal::BadEdit);
    refused(&largest().set_up().unwrap(), edit(1, 33, Amounts(1, 1)), Refusal::BadEdit);
}

// ---- standing sheets that were tampered with

/// The first check comes before all else: whatever the edit is, and wherever the counter stands.
#[track_caller]
fn fails_the_check(standing: &Standing, refusal: Refusal) {
    let full = Standing { counter: u64::MAX, ..*standing };
    let good = [edit(1, 1, Cost(1)), edit(1, 1, Amounts(3, 5))];
    let bad = [edit(3, 9, Cost(1_000_001)), edit(99, 1, Amounts(0, 0))];
    for edit in good.into_iter().chain(bad) {
        refused(standing, edit, refusal);
        refused(&full, edit, refusal);
    }
}

#[test]
fn more_parties_than_there_is_room_for() {
    for count in [0, 33, 34, 64, 1 << 32, (1 << 32) + 2, 1 << 62, 1 << 63, (1 << 63) + 2, usize::MAX] {
        fails_the_check(&changed(|s| s.sheet.m = count), Refusal::Sides);
        fails_the_check(&changed(|s| s.sheet.n = count), Refusal::Sides);
        fails_the_check(&changed(|s| (s.sheet.m, s.sheet.n) = (count, count)), Refusal::Sides);
        let nonsense = |s: &mut Standing| {
            (s.sheet.m, s.sheet.supply, s.sheet.cost) = (count, [u64::MAX; MAX_SIDE], [i64::MIN; MAX_LANES]);
            s.tableau.count = usize::MAX;
        };
        fails_the_check(&changed(nonsense), Refusal::Sides);
    }
}

#[test]
fn numbers_beyond_the_limits() {
    for bags in [1_000_001, 1 << 32, u64::MAX] {
        fails_the_check(&changed(|s| s.sheet.supply[1] = bags), Refusal::Amount);
        fails_the_check(&changed(|s| (s.sheet.demand[0], s.sheet.cost[0]) = (bags, i64::MAX)), Refusal::Amount);
    }
    for cost in [1_000_001, -1_000_001, i64::MAX, i64::MIN] {
        fails_the_check(&changed(|s| s.sheet.cost[3] = cost), Refusal::Cost);
        fails_the_check(&changed(|s| (s.sheet.cost[0], s.sheet.demand[1]) = (cost, 9)), Refusal::Cost);
    }
}

#[test]
fn totals_that_no_sheet_has() {
    fails_the_check(&changed(|s| s.sheet.demand[0] = 6), Refusal::Lacking);
    fails_the_check(&changed(|s| (s.sheet.supply[0], s.tableau.count) = (0, 9)), Refusal::Lacking);
    fails_the_check(&changed(|s| s.sheet.m = 1), Refusal::Lacking);
    fails_the_check(&changed(|s| s.sheet.demand = [0; MAX_SIDE]), Refusal::Idle);
    let mut crowded = wide(32, 32).set_up().unwrap();
    crowded.sheet.supply[0] = 33;
    fails_the_check(&crowded, Refusal::Crowded);
    crowded.sheet.demand = [0; MAX_SIDE];
    fails_the_check(&crowded, Refusal::Crowded);
}

#[test]
fn a_foreign_tableau() {
    let foreign = |change: &dyn Fn(&mut Standing)| fails_the_check(&changed(change), Refusal::ForeignTableau);
    for count in [0, 1, 2, 4, 31, 62, 63, 64, 65, 259, 1 << 32, (1 << 32) + 3, 1 << 63, usize::MAX] {
        foreign(&|s| s.tableau.count = count);
    }
    for k in 0..3 {
        foreign(&|s| s.tableau.cells[k].row += 2);
        foreign(&|s| s.tableau.cells[k].col = usize::MAX);
        foreign(&|s| s.tableau.cells[k].amount.q += 1);
        foreign(&|s| s.tableau.cells[k].amount = Pair { q: i64::MIN, e: i64::MAX });
        foreign(&|s| s.tableau.cells[k] = Cell::default());
        foreign(&|s| s.tableau.cells.swap(k, (k + 1) % 3));
    }
    for other in [p3(), p4(), dear(), first_empty()] {
        foreign(&|s| s.tableau = other.set_up().unwrap().tableau);
    }
    // The amounts of the sheet are others.
    foreign(&|s| (s.sheet.supply[0], s.sheet.demand[0]) = (4, 6));
    foreign(&|s| s.sheet.supply[1] = 5);
    // It is not finished either.
    foreign(&|s| s.tableau = tableau(&p1().start().unwrap()[..2]));
}

#[test]
fn an_unfinished_tableau() {
    fails_the_check(&changed(|s| s.tableau = p1().start().unwrap()), Refusal::Unfinished);
    // The cost of a lane is another; or there is a closed café more, and costs are of other lanes.
    fails_the_check(&changed(|s| s.sheet.cost[1] = 9), Refusal::Unfinished);
    fails_the_check(&changed(|s| s.sheet.cost[3] = -2), Refusal::Unfinished);
    fails_the_check(&changed(|s| s.sheet.n = 3), Refusal::Unfinished);
    let mut large = largest().set_up().unwrap();
    large.sheet.cost[MAX_LANES - 32] = -1_000_000;
    fails_the_check(&large, Refusal::Unfinished);
}

/// A change that leaves a sheet with a finished tableau is not noticed: the edit is of that sheet.
#[test]
fn a_change_that_passes_the_check() {
    // The café that goes is now the extra one.
    let narrower = changed(|s| s.sheet.n = 1);
    gives(narrower, edit(1, 1, Cost(1)), 5, 0, &[0, 0], &[1], &[3, 2]);
    for edit in [edit(1, 2, Cost(9)), edit(2, 2, Amounts(5, 2))] {
        accepted(&mut changed(|s| s.sheet.cost[3] = 7), edit);
        // A roastery more, and a café more, that are at 0.
        accepted(&mut changed(|s| s.sheet.m = 3), edit);
        let wider = |s: &mut Standing| (s.sheet.n, s.sheet.cost) = (3, padded(&[4, 1, 0, 2, 6]));
        accepted(&mut changed(wider), edit);
    }
}

/// What stands behind the lists and the cells does not count, and stays behind the lists.
#[test]
fn anything_behind_the_lists() {
    let littered = changed(|s| {
        s.sheet.supply[2..].fill(u64::MAX);
        s.sheet.demand[2..].fill(u64::MAX);
        s.sheet.cost[4..].fill(i64::MIN);
        s.tableau.cells[3..].fill(Cell { row: usize::MAX, col: 1 << 63, amount: Pair { q: i64::MIN, e: i64::MAX } });
    });
    for edit in [edit(1, 2, Cost(9)), edit(2, 2, Amounts(5, 2))] {
        let (mut clean, mut after) = (stands(), littered);
        assert_eq!(accepted(&mut after, edit), accepted(&mut clean, edit));
        assert_eq!((after.tableau, after.counter), (clean.tableau, 1));
        assert!(after.sheet.supply[2..] == littered.sheet.supply[2..]);
        assert!(after.sheet.demand[2..] == littered.sheet.demand[2..]);
        assert!(after.sheet.cost[4..] == littered.sheet.cost[4..]);
        refused(&littered, Edit { row: 2, ..edit }, Refusal::BadEdit);
    }
}

/// The lists of a standing sheet never go beyond its arrays.
#[test]
fn lists_of_any_standing_sheet() {
    let lists = |m: usize, n: usize| {
        let standing = changed(|s| (s.sheet.m, s.sheet.n, s.tableau.count) = (m, n, m));
        let Sheet { supply, demand, cost } = Sheet::from(&standing.sheet);
        assert!(format!("{standing:?}").len() > 100);
        (supply.len(), demand.len(), cost.len(), standing.tableau.len())
    };
    assert_eq!(lists(2, 2), (2, 2, 4, 2));
    assert_eq!(lists(0, 3), (0, 3, 0, 0));
    assert_eq!(lists(32, 32), (32, 32, 1_024, 32));
    assert_eq!(lists(33, 31), (32, 31, 1_023, 33));
    assert_eq!(lists(33, 32), (32, 32, 1_024, 33));
    assert_eq!(lists(1 << 63, 2), (32, 2, 1_024, 63));
    assert_eq!(lists(1 << 32, 1 << 32), (32, 32, 1_024, 63));
    assert_eq!(lists(usize::MAX, usize::MAX), (32, 32, 1_024, 63));
    let shown = "KeptSheet { m: 2, n: 2, supply: [3, 4], demand: [5, 2], cost: [4, 1, 2, 6] }";
    assert_eq!(format!("{:?}", stands().sheet), shown);
}

// ---- histories

/// Numbers that look random, and are the same in each run.
struct Dice(u64);

impl Dice {
    fn below(&mut self, end: u64) -> u64 {
        self.0 = self.0.wrapping_mul(6_364_136_223_846_793_005).wrapping_add(1_442_695_040_888_963_407);
        (self.0 >> 33) % end
    }

    /// An edit, perhaps of a party just beyond the sheet.
    fn edit(&mut self, sheet: &Sheet) -> Edit {
        let (m, n) = (sheet.supply.len() as u64, sheet.demand.len() as u64);
        let over = u64::from(self.below(20) == 0);
        let (row, col) = (self.below(m + over) as usize, self.below(n + over) as usize);
        let change = if self.below(2) == 0 { Cost(self.cost()) } else { self.amounts(sheet, row, col) };
        Edit { row, col, change }
    }

    fn cost(&mut self) -> i64 {
        match self.below(12) {
            0 => 1_000_001,
            1 => -1_000_000,
            _ => self.below(25) as i64 - 9,
        }
    }

    /// Amounts near those of the sheet, or 0.
    fn amounts(&mut self, sheet: &Sheet, row: usize, col: usize) -> Change {
        let (supply, demand) = (sheet.supply.get(row).unwrap_or(&1), sheet.demand.get(col).unwrap_or(&1));
        let bags = self.below(4);
        match self.below(5) {
            0 => Amounts(supply + bags, *demand),
            1 => Amounts(*supply, demand.saturating_sub(bags)),
            2 => Amounts(supply.saturating_sub(bags), demand.saturating_sub(bags)),
            3 => Amounts(supply + bags, 0),
            _ => Amounts(supply + bags, demand + bags),
        }
    }
}

/// The sheets with which histories begin.
fn sheets() -> Vec<Sheet> {
    let mut all = vec![p1(), p3(), p4(), p6(), p8(), dear(), dear_closed(), earns(), both_signs()];
    all.extend([closed(), first_empty(), last_closed(), wide(40, 31), wide(32, 32)]);
    all.extend([largest(), largest_with_surplus(), half_closed()]);
    all
}

/// What an edit refuses on a standing sheet that passes its check, with lists that are long enough.
fn refusal_of(standing: &Standing, edit: Edit) -> Option<Refusal> {
    let sheet = Sheet::from(&standing.sheet);
    if edit.row >= sheet.supply.len() || edit.col >= sheet.demand.len() {
        return Some(Refusal::BadEdit);
    }
    edit.edited(sheet).solve().err()
}

/// An edit that is accepted goes on from the kept tableau, or from the start, as run does.
fn runs_on(standing: &mut Standing, edit: Edit) {
    let kept = standing.tableau;
    let given = accepted(standing, edit);
    let edited = Sheet::from(&standing.sheet);
    let from = if let Cost(_) = edit.change { kept } else { edited.start().unwrap() };
    let run = edited.run(&from, u32::MAX).unwrap();
    assert_eq!((run.rounds, run.tableau), (given.rounds, standing.tableau), "{edit:?}");
    assert_eq!(edited.settle(&standing.tableau), Ok(given.plan));
}

/// Whatever the edits, the sheet that then stands is solved as from nothing, and accepted edits
/// count.
#[test]
fn histories() {
    let (mut dice, mut numbers) = (Dice(5), vec![]);
    for sheet in sheets() {
        let mut standing = sheet.set_up().unwrap();
        let mut count = 0;
        for _ in 0..60 {
            let edit = dice.edit(&Sheet::from(&standing.sheet));
            match refusal_of(&standing, edit) {
                Some(refusal) => {
                    refused(&standing, edit, refusal);
                    numbers.push(refusal.number());
                }
                None => {
                    runs_on(&mut standing, edit);
                    count += 1;
                }
            }
            assert_eq!(standing.counter, count);
        }
        assert!(count >= 20, "{sheet:?}: {count}");
    }
    numbers.sort_unstable();
    numbers.dedup();
    assert_eq!(numbers, [3, 4, 5, 10, 11, 12]);
}

/// The stack that docs/EMBEDDING.md tells for the crate, with edits.
const STACK: usize = 256 << 10;

#[test]
fn small_stack() {
    let calls = |large: Sheet| {
        let mut standing = large.set_up().unwrap();
        let lane = standing.set_cost(31, 30, -1_000_000).unwrap();
        let bags = standing.set_amounts(31, 30, 999_999, 999_999).unwrap();
        assert_eq!((lane.plan.len(), bags.plan.len(), standing.counter), (large.cost.len(), large.cost.len(), 2));
    };
    for mut large in [largest(), largest_with_surplus(), half_closed()] {
        (0..large.cost.len()).for_each(|k| large.cost[k] = (k as i64 * 7919) % 2_000_001 - 1_000_000);
        std::thread::Builder::new().stack_size(STACK).spawn(move || calls(large)).unwrap().join().unwrap();
    }
}
