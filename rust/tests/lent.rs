//! Lent lists: what a call fills, what it leaves, and every refusal, by its number. `tableaux.rs`
//! has 6, and `standing.rs` has edits and 12.
mod common;
use common::{
    both_signs, both_signs_last, cell, closed, closed_last, dear, dear_last, earns, first_empty, last_closed, p1, p1_last, p3, p4, p5, p6, p7, p8,
    p9, sheet, wide, MARK, SIGNED_MARK,
};
use panel::*;

const SUPPLY: [u64; 2] = [3, 4];
const DEMAND: [u64; 2] = [5, 2];
const COST: [i64; 4] = [4, 1, 2, 6];
const MARK_BYTE: u8 = 0x5a;

/// Makes every call that takes a sheet as lists and lends it rooms that are too short, and others that are long enough; each must refuse alike and change
/// nothing. The tableau is one of no sheet, then P1's: 6 and 8 come after the sheet check.
fn all_refuse(supply: &[u64], demand: &[u64], cost: &[i64], refusal: Refusal) {
    assert_eq!(start(supply, demand, cost), Err(refusal));
    assert_eq!(set_up(supply, demand, cost), Err(refusal));
    for (cells, room) in [(&[][..], 0), (&[], 1), (&p1_last(), 1), (&p1_last(), MAX_PLAN_TEXT)] {
        let (mut u, mut v, mut plan, mut out) = (vec![SIGNED_MARK; room], vec![SIGNED_MARK; room], vec![MARK; room], vec![MARK_BYTE; room]);
        assert_eq!(round(supply, demand, cost, cells), Err(refusal));
        assert_eq!(run(supply, demand, cost, cells, 1), Err(refusal));
        assert_eq!(settle(supply, demand, cost, cells, &mut plan), Err(refusal));
        assert_eq!(solve(supply, demand, cost, &mut u, &mut v, &mut plan), Err(refusal));
        assert_eq!(write_sheet(supply, demand, cost, &mut out), Err(refusal));
        assert_eq!(write_plan(supply, demand, cost, &mut out), Err(refusal));
        assert!(u.iter().chain(&v).all(|&price| price == SIGNED_MARK));
        assert!(plan.iter().all(|&bags| bags == MARK) && out.iter().all(|&byte| byte == MARK_BYTE));
    }
}

#[test]
fn refused_1() {
    all_refuse(&[], &DEMAND, &COST, Refusal::Sides);
    all_refuse(&SUPPLY, &[], &COST, Refusal::Sides);
    all_refuse(&[], &[], &[], Refusal::Sides);
    all_refuse(&[], &DEMAND, &[], Refusal::Sides);
    all_refuse(&[1; 33], &[33], &[0; 33], Refusal::Sides);
    all_refuse(&[0], &[1; 33], &[], Refusal::Sides);
}

#[test]
fn refused_2() {
    all_refuse(&SUPPLY, &DEMAND, &COST[..3], Refusal::CostCount);
    all_refuse(&SUPPLY, &DEMAND, &[4, 1, 2, 6, 0], Refusal::CostCount);
    all_refuse(&[0], &[1], &[], Refusal::CostCount);
}

#[test]
fn refused_3() {
    all_refuse(&[1_000_001], &[2], &[0], Refusal::Amount);
    all_refuse(&[3, 1_000_001], &[0, 0], &COST, Refusal::Amount);
    all_refuse(&[1_000_001, 0], &DEMAND, &COST, Refusal::Amount);
    all_refuse(&SUPPLY, &[5, 1_000_001], &COST, Refusal::Amount);
    all_refuse(&[u64::MAX, 8], &DEMAND, &[i64::MAX; 4], Refusal::Amount);
}

#[test]
fn refused_4() {
    for cost in [1_000_001, -1_000_001, 1 << 32, -(1 << 32), i64::MAX, i64::MIN, i64::MIN + 1] {
        all_refuse(&[1_000_000], &[1_000_000], &[cost], Refusal::Cost);
        all_refuse(&SUPPLY, &DEMAND, &[4, -1, 2, cost], Refusal::Cost);
        all_refuse(&[3, 5], &DEMAND, &[cost, 1, 2, 6], Refusal::Cost);
        all_refuse(&[3, 3], &DEMAND, &[cost, 1, 2, 6], Refusal::Cost);
    }
}

#[test]
fn refused_5() {
    all_refuse(&[2], &[3], &[0], Refusal::Lacking);
    all_refuse(&[0], &[2], &[0], Refusal::Lacking);
    all_refuse(&[0, 6], &DEMAND, &COST, Refusal::Lacking);
    all_refuse(&SUPPLY, &[5, 3], &COST, Refusal::Lacking);
    all_refuse(&[3, 3], &DEMAND, &COST, Refusal::Lacking);
    all_refuse(&[31], &[1; 32], &[1; 32], Refusal::Lacking);
}

#[test]
fn refused_7() {
    let mut plan = [MARK; 4];
    let first = start(&SUPPLY, &DEMAND, &COST).unwrap();
    assert_eq!(settle(&SUPPLY, &DEMAND, &COST, &first, &mut plan[..3]), Err(Refusal::Unfinished));
    assert_eq!(settle(&SUPPLY, &DEMAND, &COST, &first, &mut plan), Err(Refusal::Unfinished));
    assert_eq!(plan, [MARK; 4]);
}

#[test]
fn refused_8() {
    let (mut u, mut v, mut plan) = ([SIGNED_MARK; 2], [SIGNED_MARK; 2], [MARK; 4]);
    assert_eq!(settle(&SUPPLY, &DEMAND, &COST, &p1_last(), &mut plan[..3]), Err(Refusal::Room));
    assert_eq!(solve(&SUPPLY, &DEMAND, &COST, &mut u[..1], &mut v, &mut plan), Err(Refusal::Room));
    assert_eq!(solve(&SUPPLY, &DEMAND, &COST, &mut u, &mut v[..1], &mut plan), Err(Refusal::Room));
    assert_eq!(solve(&SUPPLY, &DEMAND, &COST, &mut u, &mut v, &mut plan[..3]), Err(Refusal::Room));
    assert_eq!((u, v, plan), ([SIGNED_MARK; 2], [SIGNED_MARK; 2], [MARK; 4]));

    let text = include_bytes!("../../examples/worked.sheet");
    let (mut supply, mut demand, mut cost) = ([MARK; 2], [MARK; 2], [SIGNED_MARK; 4]);
    assert_eq!(read_sheet(text, &mut supply[..1], &mut demand, &mut cost), Err(Refusal::Room));
    assert_eq!(read_sheet(text, &mut supply, &mut demand[..1], &mut cost), Err(Refusal::Room));
    assert_eq!(read_sheet(text, &mut supply, &mut demand, &mut cost[..3]), Err(Refusal::Room));
    assert_eq!((supply, demand, cost), ([MARK; 2], [MARK; 2], [SIGNED_MARK; 4]));

    let plan_text = include_bytes!("../../examples/worked.plan");
    let mut out = [MARK_BYTE; MAX_PLAN_TEXT];
    assert_eq!(write_sheet(&SUPPLY, &DEMAND, &COST, &mut out[..text.len() - 1]), Err(Refusal::Room));
    assert_eq!(write_plan(&SUPPLY, &DEMAND, &COST, &mut out[..plan_text.len() - 1]), Err(Refusal::Room));
    assert_eq!(write_plan(&SUPPLY, &DEMAND, &COST, &mut []), Err(Refusal::Room));
    assert!(out.iter().all(|&b| b == MARK_BYTE));
}

#[test]
fn refused_9() {
    let (mut supply, mut demand, mut cost) = ([MARK; 2], [MARK; 2], [SIGNED_MARK; 4]);
    let mut read = |text: &[u8]| read_sheet(text, &mut supply, &mut demand, &mut cost);
    assert_eq!(read(b"supply 2\r\n"), Err(Refusal::NotSheetText { place: 8 }));
    assert_eq!(read(b"\xff"), Err(Refusal::NotSheetText { place: 0 }));
    // 9 before 3, 4, 5, 10 and 11, and these in this order.
    let no_last_line_end = b"supply 1\n0\ndemand 1\n1000001\ncost 1\n1000001";
    assert_eq!(read(no_last_line_end), Err(Refusal::NotSheetText { place: no_last_line_end.len() }));
    assert_eq!(read(b"supply 1\n0\ndemand 1\n1000001\ncost 1\n1000001\n"), Err(Refusal::Amount));
    assert_eq!(read(b"supply 1\n1\ndemand 1\n2\ncost 1\n1000001\n"), Err(Refusal::Cost));
    assert_eq!(read(b"supply 1\n1\ndemand 1\n2\ncost 1\n-1000001\n"), Err(Refusal::Cost));
    assert_eq!(read(b"supply 1\n1\ndemand 1\n2\ncost 1\n1000000\n"), Err(Refusal::Lacking));
    // 10 before 11, and 11 before 8.
    let crowded = format!("supply 1\n33\ndemand 32\n{}cost 1\n0{}", "0\n".repeat(32), " 0".repeat(31));
    assert_eq!(read(crowded.as_bytes()), Err(Refusal::NotSheetText { place: crowded.len() }));
    assert_eq!(read((crowded + "\n").as_bytes()), Err(Refusal::Crowded));
    assert_eq!(read(b"supply 1\n9\ndemand 3\n0\n0\n0\ncost 1\n1 2 3\n"), Err(Refusal::Idle));
    assert_eq!((supply, demand, cost), ([MARK; 2], [MARK; 2], [SIGNED_MARK; 4]));
}

#[test]
fn refused_10() {
    all_refuse(&[40], &[1; 32], &[1; 32], Refusal::Crowded);
    all_refuse(&[33], &[1; 32], &[0; 32], Refusal::Crowded);
    all_refuse(&[1_000_000; 32], &[&[1_000_000; 31][..], &[999_999]].concat(), &[0; 1024], Refusal::Crowded);
    all_refuse(&[40], &[1; 32], &[1_000_001; 32], Refusal::Cost);
    all_refuse(&[40], &[1; 32], &[-1_000_001; 32], Refusal::Cost);
    all_refuse(&[1_000_001], &[1; 32], &[1_000_001; 32], Refusal::Amount);
    all_refuse(&[40], &[1; 32], &[1; 33], Refusal::CostCount);
    all_refuse(&[40], &[1; 33], &[1; 33], Refusal::Sides);
    // A closed café takes its column all the same.
    all_refuse(&[32], &[&[1; 31][..], &[0]].concat(), &[1; 32], Refusal::Crowded);
    all_refuse(&[0, 1], &[0; 32], &[1; 64], Refusal::Crowded);
}

#[test]
fn refused_11() {
    all_refuse(&[0], &[0], &[0], Refusal::Idle);
    all_refuse(&[2], &[0], &[0], Refusal::Idle);
    all_refuse(&SUPPLY, &[0, 0], &COST, Refusal::Idle);
    all_refuse(&[0; 32], &[0; 32], &[1_000_000; 1024], Refusal::Idle);
    all_refuse(&[1_000_000; 32], &[0; 31], &[-1_000_000; 992], Refusal::Idle);
    all_refuse(&SUPPLY, &[0, 0], &[4, 1, 2, 1_000_001], Refusal::Cost);
    all_refuse(&[3, 1_000_001], &[0, 0], &COST, Refusal::Amount);
    all_refuse(&SUPPLY, &[0, 0], &COST[..3], Refusal::CostCount);
}

#[test]
fn only_the_front_is_filled() {
    let mut plan = [MARK; 6];
    assert_eq!(settle(&SUPPLY, &DEMAND, &COST, &p1_last(), &mut plan[1..]), Ok(()));
    assert_eq!(plan, [MARK, 1, 2, 4, 0, MARK]);

    let (mut u, mut v, mut plan) = ([SIGNED_MARK; 4], [SIGNED_MARK; 4], [MARK; 7]);
    assert_eq!(solve(&SUPPLY, &DEMAND, &COST, &mut u[1..], &mut v[1..], &mut plan[1..]), Ok(Solved { cost: 14, rounds: 1 }));
    assert_eq!((u, v), ([SIGNED_MARK, 0, -2, SIGNED_MARK], [SIGNED_MARK, 4, 1, SIGNED_MARK]));
    assert_eq!(plan, [MARK, 1, 2, 4, 0, MARK, MARK]);

    let text = include_bytes!("../../examples/worked.sheet");
    let (mut supply, mut demand, mut cost) = ([MARK; 4], [MARK; 4], [SIGNED_MARK; 6]);
    assert_eq!(read_sheet(text, &mut supply[1..], &mut demand[1..], &mut cost[1..]), Ok((2, 2)));
    assert_eq!((supply, demand, cost), ([MARK, 3, 4, MARK], [MARK, 5, 2, MARK], [SIGNED_MARK, 4, 1, 2, 6, SIGNED_MARK]));

    let plan_text = include_bytes!("../../examples/worked.plan");
    for spare in [0, 1, 9] {
        let mut out = vec![MARK_BYTE; 1 + plan_text.len() + spare];
        assert_eq!(write_sheet(&SUPPLY, &DEMAND, &COST, &mut out[1..]), Ok(text.len()));
        assert_eq!(&out[1..=text.len()], text);
        assert!(out[text.len() + 1..].iter().all(|&b| b == MARK_BYTE));
        assert_eq!(write_plan(&SUPPLY, &DEMAND, &COST, &mut out[1..]), Ok(plan_text.len()));
        assert_eq!(&out[1..=plan_text.len()], plan_text);
        assert!(out[plan_text.len() + 1..].iter().all(|&b| b == MARK_BYTE));
        assert_eq!(out[0], MARK_BYTE);
    }
}

/// What solve answers, and what `u`, `v` and `plan` then hold. Each has a place more than is needed, but for what `less` takes from it.
fn solve_marked(sheet: &Sheet, less: [usize; 3]) -> (Result<Solved, Refusal>, Vec<i64>, Vec<i64>, Vec<u64>) {
    let (m, n) = (sheet.supply.len(), sheet.demand.len());
    let (mut u, mut v) = (vec![SIGNED_MARK; m + 1 - less[0]], vec![SIGNED_MARK; n + 1 - less[1]]);
    let mut plan = vec![MARK; m * n + 1 - less[2]];
    let answer = solve(&sheet.supply, &sheet.demand, &sheet.cost, &mut u, &mut v, &mut plan);
    (answer, u, v, plan)
}

#[test]
fn solve_fills_the_fronts() {
    let solved = |sheet: Sheet, cost: i64, rounds: u64, u: &[i64], v: &[i64], plan: &[u64]| {
        let lists = ([u, &[SIGNED_MARK]].concat(), [v, &[SIGNED_MARK]].concat(), [plan, &[MARK]].concat());
        assert_eq!(solve_marked(&sheet, [0; 3]), (Ok(Solved { cost, rounds }), lists.0, lists.1, lists.2));
    };
    solved(p1(), 14, 1, &[0, -2], &[4, 1], &[1, 2, 4, 0]);
    solved(p3(), 10, 0, &[0, 0], &[1, 1], &[5, 0, 0, 5]);
    solved(p4(), 0, 2, &[0, 0], &[0, 0, 0], &[0, 1, 0, 2, 0, 1]);
    solved(p6(), 0, 0, &[0], &[0], &[1]);
    solved(p7(), 1_000_000_000_000, 0, &[0], &[1_000_000], &[1_000_000]);
    // Neither the price nor the lanes of the extra café.
    solved(p8(), 0, 0, &[0], &[0], &[2]);
    solved(dear(), 8, 1, &[0, -4], &[5], &[1, 3]);
    solved(wide(40, 31), 31, 0, &[0], &[1; 31], &[1; 31]);
    // Parties at 0 have a price, and lanes that carry nothing.
    solved(closed(), 2_300, 1, &[-35, 0, -35], &[95, 70, 110], &[0, 0, 0, 12, 0, 1, 0, 0, 14]);
    solved(first_empty(), 14, 1, &[-4, 0, -2], &[4, 1], &[0, 0, 1, 2, 4, 0]);
    solved(last_closed(), 14, 1, &[0, -2], &[4, 1, 3], &[1, 2, 0, 4, 0, 0]);
    // A plan may earn money.
    solved(earns(), -14, 1, &[0, -6], &[1], &[1, 3]);
    solved(both_signs(), -3, 2, &[0, 3], &[-4, -3, -1], &[0, 0, 2, 1, 2, 0]);
}

#[test]
fn solve_with_a_short_list() {
    for (sheet, all) in [(p1(), [3, 3, 5]), (dear(), [3, 2, 3]), (first_empty(), [2, 2, 3]), (last_closed(), [2, 2, 3])] {
        for less in [[2, 0, 0], [0, 2, 0], [0, 0, 2], all] {
            let (answer, u, v, plan) = solve_marked(&sheet, less);
            assert_eq!(answer, Err(Refusal::Room));
            assert!(u.iter().chain(&v).all(|&price| price == SIGNED_MARK) && plan.iter().all(|&bags| bags == MARK));
        }
    }
    // A place for each café and lane of the sheet is enough.
    let (answer, u, v, plan) = solve_marked(&dear(), [1, 1, 1]);
    assert_eq!((answer, u, v, plan), (Ok(Solved { cost: 8, rounds: 1 }), vec![0, -4], vec![5], vec![1, 3]));
}

#[test]
fn settle_with_marks() {
    let settled = |sheet: Sheet, cells: &[Cell], room: usize| {
        let mut plan = vec![MARK; room];
        (settle(&sheet.supply, &sheet.demand, &sheet.cost, cells, &mut plan), plan)
    };
    let lacking = sheet(&[1, 2], &[2, 1, 1], &[9, 0, 0, 0, 0, 0]);
    assert_eq!(settled(p4(), &p5(), 7), (Ok(()), vec![0, 1, 0, 2, 0, 1, MARK]));
    assert_eq!(settled(p4(), &p5(), 6), (Ok(()), vec![0, 1, 0, 2, 0, 1]));
    assert_eq!(settled(p4(), &p5(), 5), (Err(Refusal::Room), vec![MARK; 5]));
    assert_eq!(settled(both_signs(), &both_signs_last(), 7), (Ok(()), vec![0, 0, 2, 1, 2, 0, MARK]));
    assert_eq!(settled(dear(), &dear_last(), 3), (Ok(()), vec![1, 3, MARK]));
    assert_eq!(settled(dear(), &dear_last(), 2), (Ok(()), vec![1, 3]));
    assert_eq!(settled(dear(), &dear_last(), 1), (Err(Refusal::Room), vec![MARK; 1]));
    assert_eq!(settled(closed(), &closed_last(), 10), (Ok(()), vec![0, 0, 0, 12, 0, 1, 0, 0, 14, MARK]));
    assert_eq!(settled(closed(), &closed_last(), 8), (Err(Refusal::Room), vec![MARK; 8]));
    assert_eq!(settled(lacking, &p5(), 7), (Err(Refusal::Lacking), vec![MARK; 7]));
    assert_eq!(settled(sheet(&[1, 3], &[0; 3], &[0; 6]), &p5(), 5), (Err(Refusal::Idle), vec![MARK; 5]));
    assert_eq!(settled(wide(40, 32), &p5(), 31), (Err(Refusal::Crowded), vec![MARK; 31]));
    assert_eq!(settled(p3(), &p9(), 5), (Err(Refusal::ForeignTableau), vec![MARK; 5]));
    let start = [cell(1, 1, 3, 1), cell(2, 1, 2, -1), cell(2, 2, 2, 2)];
    assert_eq!(settled(p1(), &start, 5), (Err(Refusal::Unfinished), vec![MARK; 5]));
}

#[test]
fn refusals_by_number_and_name() {
    use Refusal::*;
    let first = [Sides, CostCount, Amount, Cost, Lacking, ForeignTableau, Unfinished, Room];
    let then = [NotSheetText { place: 38 }, Crowded, Idle, BadEdit];
    assert!(first.iter().chain(&then).map(|r| r.number()).eq(1..=12));
    assert_eq!(Amount.to_string(), "a supply or demand is above 1,000,000");
    assert_eq!(Cost.to_string(), "a cost is outside -1,000,000 to 1,000,000");
    assert_eq!(Lacking.to_string(), "total demand is greater than total supply");
    assert_eq!(NotSheetText { place: 38 }.to_string(), "not a sheet text, at place 38");
    assert_eq!(Crowded.to_string(), "total supply is greater than total demand, with 32 cafés");
    assert_eq!(Idle.to_string(), "total demand is 0");
    assert_eq!(BadEdit.to_string(), "the edit names a party not on the sheet, or the counter is at its largest value");
}
