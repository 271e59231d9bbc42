//! The sample sheets of paper 01, and for paper 02 some with a surplus (One), some with costs below 0 (Two) and some with parties at 0 (Four), through the
//! owned calls.
mod common;
use common::{
    both_signs, both_signs_last, cell, closed, closed_last, dear, dear_last, earns, finished, first_empty, full, half_closed, largest,
    largest_with_surplus, last_closed, p1, p1_last, p3, p4, p5, p6, p7, p8, p9, sheet, wide,
};
use panel::{Refusal, Round, Run, Sheet, Tableau};

fn next(sheet: &Sheet, t: &Tableau) -> Tableau {
    match sheet.round(t) {
        Ok(Round::Next(t)) => t,
        other => panic!("no next tableau: {other:?}"),
    }
}

#[test]
fn p1_start_round_and_prices() {
    let start = p1().start().unwrap();
    assert_eq!(*start, [cell(1, 1, 3, 1), cell(2, 1, 2, -1), cell(2, 2, 2, 2)]);
    let last = next(&p1(), &start);
    assert_eq!(*last, p1_last());
    assert_eq!(p1().round(&last), finished(&[0, -2], &[4, 1]));
    assert_eq!(p1().settle(&last), Ok(vec![1, 2, 4, 0]));
}

#[test]
fn p1_solved() {
    let s = p1().solve().unwrap();
    assert_eq!((s.cost, s.rounds), (14, 1));
    assert_eq!((s.u, s.v, s.plan), (vec![0, -2], vec![4, 1], vec![1, 2, 4, 0]));
}

#[test]
fn p2_allowance() {
    let start = p1().start().unwrap();
    assert_eq!(p1().run(&start, 0), Ok(Run { finished: false, rounds: 0, tableau: start }));
    let last = next(&p1(), &start);
    for allowance in [1, 2, u32::MAX] {
        assert_eq!(p1().run(&start, allowance), Ok(Run { finished: true, rounds: 1, tableau: last }));
    }
    assert_eq!(p1().run(&last, 0), Ok(Run { finished: true, rounds: 0, tableau: last }));
}

#[test]
fn p3_start_is_finished() {
    let start = p3().start().unwrap();
    assert_eq!(*start, [cell(1, 1, 5, 0), cell(1, 2, 0, 1), cell(2, 2, 5, 1)]);
    assert_eq!(p3().round(&start), finished(&[0, 0], &[1, 1]));
    assert_eq!(p3().run(&start, u32::MAX), Ok(Run { finished: true, rounds: 0, tableau: start }));
    let s = p3().solve().unwrap();
    assert_eq!((s.cost, s.rounds), (10, 0));
    assert_eq!((s.u, s.v, s.plan), (vec![0, 0], vec![1, 1], vec![5, 0, 0, 5]));
}

#[test]
fn p4_the_second_step_is_a_mark() {
    let start = p4().start().unwrap();
    assert_eq!(*start, [cell(1, 1, 1, 1), cell(2, 1, 1, -1), cell(2, 2, 1, 0), cell(2, 3, 1, 2)]);
    let first = next(&p4(), &start);
    assert_eq!(*first, [cell(1, 1, 0, 1), cell(1, 2, 1, 0), cell(2, 1, 2, -1), cell(2, 3, 1, 2)]);
    let second = next(&p4(), &first);
    assert_eq!(*second, [cell(1, 2, 1, 0), cell(1, 3, 0, 1), cell(2, 1, 2, 0), cell(2, 3, 1, 1)]);
    assert_eq!(p4().round(&second), finished(&[0; 2], &[0; 3]));
    assert_eq!(p4().run(&start, 1), Ok(Run { finished: false, rounds: 1, tableau: first }));
    assert_eq!(p4().run(&start, u32::MAX), Ok(Run { finished: true, rounds: 2, tableau: second }));
    let s = p4().solve().unwrap();
    assert_eq!((s.cost, s.rounds), (0, 2));
    assert_eq!((s.u, s.v, s.plan), (vec![0; 2], vec![0; 3], vec![0, 1, 0, 2, 0, 1]));
}

#[test]
fn p5_another_tableau_settles_to_the_same_plan() {
    assert_eq!(p4().round(&p5()), finished(&[0; 2], &[0; 3]));
    let run = p4().run(&p5(), 7).unwrap();
    assert_eq!((run.finished, run.rounds, &*run.tableau), (true, 0, &p5()[..]));
    assert_eq!(p4().settle(&p5()), Ok(vec![0, 1, 0, 2, 0, 1]));
}

#[test]
fn p6_one_bag() {
    assert_eq!(*p6().start().unwrap(), [cell(1, 1, 1, 1)]);
    let s = p6().solve().unwrap();
    assert_eq!((s.cost, s.rounds), (0, 0));
    assert_eq!((s.u, s.v, s.plan), (vec![0], vec![0], vec![1]));
}

#[test]
fn p7_the_greatest_numbers() {
    let s = p7().solve().unwrap();
    assert_eq!((s.cost, s.rounds), (1_000_000_000_000, 0));
    assert_eq!((s.u, s.v, s.plan), (vec![0], vec![1_000_000], vec![1_000_000]));
    assert_eq!(sheet(&[1_000_000], &[1_000_000], &[1_000_001]).solve(), Err(Refusal::Cost));
}

/// What solve gives.
#[track_caller]
fn solved(sheet: Sheet, cost: i64, rounds: u64, u: &[i64], v: &[i64], plan: &[u64]) {
    let s = sheet.solve().unwrap();
    assert_eq!((s.cost, s.rounds), (cost, rounds));
    assert_eq!((&*s.u, &*s.v, &*s.plan), (u, v, plan));
}

#[test]
fn p8_a_bag_stays_at_home_and_a_refused_sheet() {
    assert_eq!(*p8().start().unwrap(), [cell(1, 1, 2, 0), cell(1, 2, 1, 1)]);
    solved(p8(), 0, 0, &[0], &[0], &[2]);
    assert_eq!(sheet(&[0], &[2], &[0]).solve(), Err(Refusal::Lacking));
}

#[test]
fn the_dear_roastery_keeps_the_surplus() {
    let start = dear().start().unwrap();
    assert_eq!(*start, [cell(1, 1, 3, 1), cell(2, 1, 1, -1), cell(2, 2, 2, 2)]);
    let last = next(&dear(), &start);
    assert_eq!(*last, dear_last());
    assert_eq!(dear().round(&last), finished(&[0, -4], &[5]));
    assert_eq!(dear().run(&start, 0), Ok(Run { finished: false, rounds: 0, tableau: start }));
    assert_eq!(dear().run(&start, 9), Ok(Run { finished: true, rounds: 1, tableau: last }));
    assert_eq!(dear().settle(&start), Err(Refusal::Unfinished));
    assert_eq!(dear().settle(&last), Ok(vec![1, 3]));
    solved(dear(), 8, 1, &[0, -4], &[5], &[1, 3]);
}

#[test]
fn both_roasteries_keep_a_bag() {
    let split = sheet(&[3, 3], &[2, 2], &[1, 9, 9, 1]);
    let start = split.start().unwrap();
    assert_eq!(*start, [cell(1, 1, 2, 0), cell(1, 2, 1, 1), cell(2, 2, 1, -1), cell(2, 3, 2, 2)]);
    let last = next(&split, &start);
    assert_eq!(*last, [cell(1, 1, 2, 0), cell(1, 3, 1, 1), cell(2, 2, 2, 0), cell(2, 3, 1, 1)]);
    assert_eq!(split.round(&last), finished(&[0, 0], &[1, 1]));
    solved(split, 4, 1, &[0, 0], &[1, 1], &[2, 0, 0, 2]);
}

#[test]
fn ties_with_a_surplus() {
    // The first lane carries all it can, though the other roastery costs the same.
    solved(sheet(&[3, 3], &[4], &[1, 1]), 4, 0, &[0, 0], &[1], &[3, 1]);
    // The extra café's lane of row 1 and the lane (2,1) could enter: the first in sheet order does.
    let extra_first = sheet(&[1, 2], &[1, 1], &[2, 2, 0, 1]);
    assert!(next(&extra_first, &extra_first.start().unwrap()).iter().any(|c| (c.row, c.col) == (0, 2)));
    solved(extra_first, 1, 2, &[0, 0], &[0, 1], &[0, 0, 1, 1]);
    // So could (1,2) and the extra café's lane of row 1.
    let extra_later = sheet(&[1, 3], &[2, 1], &[3, 0, 2, 0]);
    assert!(next(&extra_later, &extra_later.start().unwrap()).iter().any(|c| (c.row, c.col) == (0, 1)));
    solved(extra_later, 4, 2, &[0, 0], &[2, 0], &[0, 1, 2, 0]);
}

#[test]
fn room_for_the_extra_cafe() {
    solved(wide(40, 31), 31, 0, &[0], &[1; 31], &[1; 31]);
    assert_eq!(wide(40, 31).start().unwrap()[31], cell(1, 32, 9, 1));
    assert_eq!(wide(40, 32).solve(), Err(Refusal::Crowded));
    assert_eq!(wide(31, 32).solve(), Err(Refusal::Lacking));
    solved(wide(32, 32), 32, 0, &[0], &[1; 32], &[1; 32]);
}

#[test]
fn the_lane_that_earns_goes_full() {
    solved(earns(), -14, 1, &[0, -6], &[1], &[1, 3]);
    let start = earns().start().unwrap();
    assert_eq!(*next(&earns(), &start), dear_last());
    assert_eq!(earns().settle(&dear_last()), Ok(vec![1, 3]));
}

/// The bags of the start cost 3, those after a round 0, and those after the next -3.
#[test]
fn costs_of_both_signs() {
    let start = both_signs().start().unwrap();
    assert_eq!(*start, [cell(1, 1, 1, 0), cell(1, 2, 1, 1), cell(2, 2, 1, -1), cell(2, 3, 2, 2)]);
    let middle = next(&both_signs(), &start);
    assert_eq!(*middle, [cell(1, 1, 1, 0), cell(1, 3, 1, 1), cell(2, 2, 2, 0), cell(2, 3, 1, 1)]);
    let last = next(&both_signs(), &middle);
    assert_eq!(*last, both_signs_last());
    assert_eq!(both_signs().round(&last), finished(&[0, 3], &[-4, -3, -1]));
    assert_eq!(both_signs().run(&start, 1), Ok(Run { finished: false, rounds: 1, tableau: middle }));
    assert_eq!(both_signs().run(&start, 9), Ok(Run { finished: true, rounds: 2, tableau: last }));
    solved(both_signs(), -3, 2, &[0, 3], &[-4, -3, -1], &[0, 0, 2, 1, 2, 0]);
}

#[test]
fn the_least_cost_and_one_less() {
    let lane = |cost: i64| sheet(&[1_000_000], &[1_000_000], &[cost]);
    solved(lane(-1_000_000), -1_000_000_000_000, 0, &[0], &[-1_000_000], &[1_000_000]);
    for cost in [-1_000_001, i64::MIN, i64::MAX] {
        assert_eq!(lane(cost).solve(), Err(Refusal::Cost));
    }
}

/// The tableaux cover two roasteries, two cafés and the extra one, under their own numbers, with a mark for each of the two. A bag for café 2 would cost 70,
/// and one at roastery 1 would save 35.
#[test]
fn an_empty_roastery_and_a_closed_cafe() {
    let start = closed().start().unwrap();
    assert_eq!(*start, [cell(2, 1, 12, 0), cell(2, 3, 8, 1), cell(3, 3, 7, -1), cell(3, 4, 7, 2)]);
    let last = next(&closed(), &start);
    assert_eq!(*last, closed_last());
    assert_eq!(closed().round(&last), finished(&[-35, 0, -35], &[95, 70, 110]));
    assert_eq!(closed().run(&start, 0), Ok(Run { finished: false, rounds: 0, tableau: start }));
    assert_eq!(closed().run(&start, 9), Ok(Run { finished: true, rounds: 1, tableau: last }));
    assert_eq!(closed().settle(&start), Err(Refusal::Unfinished));
    assert_eq!(closed().settle(&last), Ok(vec![0, 0, 0, 12, 0, 1, 0, 0, 14]));
    solved(closed(), 2_300, 1, &[-35, 0, -35], &[95, 70, 110], &[0, 0, 0, 12, 0, 1, 0, 0, 14]);
    let with_a_bag = |roastery: u64, cafe: u64| sheet(&[roastery, 20, 14], &[12, cafe, 15], &closed().cost).solve().unwrap().cost;
    assert_eq!((with_a_bag(0, 0), with_a_bag(0, 1), with_a_bag(1, 0)), (2_300, 2_370, 2_265));
}

/// The first roastery left has price 0, and without an extra café the last one left has the marks.
#[test]
fn the_first_roastery_empty_or_the_last_cafe_closed() {
    let start = first_empty().start().unwrap();
    assert_eq!(*start, [cell(2, 1, 3, 1), cell(3, 1, 2, -1), cell(3, 2, 2, 2)]);
    let last = next(&first_empty(), &start);
    assert_eq!(*last, [cell(2, 1, 1, -1), cell(2, 2, 2, 2), cell(3, 1, 4, 1)]);
    assert_eq!(first_empty().round(&last), finished(&[-4, 0, -2], &[4, 1]));
    solved(first_empty(), 14, 1, &[-4, 0, -2], &[4, 1], &[0, 0, 1, 2, 4, 0]);

    assert_eq!(last_closed().start(), p1().start());
    assert_eq!(*next(&last_closed(), &last_closed().start().unwrap()), p1_last());
    assert_eq!(last_closed().round(&p1_last()), finished(&[0, -2], &[4, 1, 3]));
    solved(last_closed(), 14, 1, &[0, -2], &[4, 1, 3], &[1, 2, 0, 4, 0, 0]);

    // With a surplus the extra café stands after the closed one, and has the marks.
    let with_surplus = sheet(&[3, 3], &[4, 0], &[5, 7, 1, -2]);
    assert_eq!(*with_surplus.start().unwrap(), [cell(1, 1, 3, 1), cell(2, 1, 1, -1), cell(2, 3, 2, 2)]);
    solved(with_surplus, 8, 1, &[0, -4], &[5, 2], &[1, 0, 3, 0]);
}

/// Cafés come first: the price of the empty roastery stands on that of the closed café.
#[test]
fn prices_of_struck_parties() {
    solved(sheet(&[1, 0], &[1, 0], &[0, 5, 10, -3]), 0, 0, &[0, -8], &[0, 5], &[1, 0, 0, 0]);
    let nine = [1, 2, 3, 4, 5, 6, 7, 8, 9];
    let only_one_lane = |bags| [0, 0, 0, 0, bags, 0, 0, 0, 0];
    let balanced = sheet(&[0, 5, 0], &[0, 5, 0], &nine);
    assert_eq!(*balanced.start().unwrap(), [cell(2, 2, 5, 1)]);
    solved(balanced, 25, 0, &[-3, 0, 3], &[4, 5, 6], &only_one_lane(5));
    // So does the extra café: its price is 0, and no roastery's is greater.
    let with_surplus = sheet(&[0, 5, 0], &[0, 3, 0], &nine);
    assert_eq!(*with_surplus.start().unwrap(), [cell(2, 2, 3, 0), cell(2, 4, 2, 1)]);
    solved(with_surplus, 15, 0, &[-3, 0, 0], &[4, 5, 6], &only_one_lane(3));
}

#[test]
fn closed_cafes_at_the_limits() {
    let one_closed = [&[1; 16][..], &[0], &[1; 15]].concat();
    solved(sheet(&[31], &one_closed, &[1; 32]), 31, 0, &[0], &[1; 32], &one_closed);
    assert_eq!(sheet(&[32], &one_closed, &[1; 32]).solve(), Err(Refusal::Crowded));
    assert_eq!(sheet(&[1], &[0; 32], &[1; 32]).solve(), Err(Refusal::Crowded));
    assert_eq!(sheet(&[0], &[0; 32], &[1; 32]).solve(), Err(Refusal::Idle));
    assert_eq!(sheet(&[1], &[0; 31], &[1; 31]).solve(), Err(Refusal::Idle));
    assert_eq!(half_closed().start().unwrap().len(), 31);
    assert_eq!(half_closed().solve().unwrap().cost, 16_000_000_000_000);
}

#[test]
fn p9_refused_tableaux() {
    assert_eq!(p3().round(&p9()), Err(Refusal::ForeignTableau));
    assert_eq!(p3().run(&p9(), 1), Err(Refusal::ForeignTableau));
    assert_eq!(p3().settle(&p9()), Err(Refusal::ForeignTableau));
    assert_eq!(p1().settle(&p1().start().unwrap()), Err(Refusal::Unfinished));
}

#[test]
fn the_largest_sheet() {
    assert_eq!(largest().start().unwrap().len(), panel::MAX_CELLS);
    assert_eq!(largest().solve().unwrap().cost, 32_000_000_000_000);
    assert_eq!(full(-1_000_000).solve().unwrap().cost, -32_000_000_000_000);
    assert_eq!(largest_with_surplus().start().unwrap().len(), panel::MAX_CELLS);
    assert_eq!(largest_with_surplus().solve().unwrap().cost, 31_000_000_000_000);
}

/// All bags of 32 roasteries but one stay at home.
#[test]
fn the_greatest_surplus() {
    let idle = sheet(&[1_000_000; 32], &[1], &[0; 32]);
    let start = idle.start().unwrap();
    assert_eq!(*start, [&[cell(1, 1, 1, 0), cell(1, 2, 999_999, 1)][..], &(2..=32).map(|i| cell(i, 2, 1_000_000, 1)).collect::<Vec<_>>()].concat());
    assert_eq!(idle.settle(&start), Ok([&[1][..], &[0; 31]].concat()));
}

#[test]
fn threads_agree() {
    let valley = Sheet::read(include_bytes!("../../examples/valley.sheet")).unwrap();
    let plan = include_str!("../../examples/valley.plan");
    std::thread::scope(|scope| {
        for _ in 0..8 {
            scope.spawn(|| (0..100).for_each(|_| assert_eq!(valley.plan_text().unwrap(), plan)));
        }
    });
}

/// The stack that docs/EMBEDDING.md tells for the crate.
#[test]
fn small_stack() {
    let calls = |mut large: Sheet| {
        (0..large.cost.len()).for_each(|k| large.cost[k] = (k as i64 * 7919) % 2_000_001 - 1_000_000);
        let run = large.run(&large.start().unwrap(), u32::MAX).unwrap();
        assert!(matches!(large.round(&run.tableau), Ok(Round::Finished { .. })));
        assert_eq!(large.settle(&run.tableau).unwrap(), large.solve().unwrap().plan);
        assert_eq!(Sheet::read(large.text().unwrap().as_bytes()).unwrap().plan_text(), large.plan_text());
    };
    for large in [largest(), largest_with_surplus(), half_closed()] {
        std::thread::Builder::new().stack_size(96 << 10).spawn(move || calls(large)).unwrap().join().unwrap();
    }
}
