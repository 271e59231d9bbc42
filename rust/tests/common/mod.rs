//! Sheets and cells of the papers' samples, for the tests that want them.
#![allow(dead_code)] // no test wants all
use panel::{Cell, Pair, Refusal, Round, Sheet, MAX_LANES, MAX_SIDE};

/// What a lent list holds before a call.
pub const MARK: u64 = 0x5a5a_5a5a_5a5a_5a5a;
pub const SIGNED_MARK: i64 = MARK as i64;

pub fn sheet(supply: &[u64], demand: &[u64], cost: &[i64]) -> Sheet {
    Sheet { supply: supply.to_vec(), demand: demand.to_vec(), cost: cost.to_vec() }
}

/// A cell as the paper writes it: roastery and café from 1, bags and marks.
pub fn cell(roastery: usize, cafe: usize, q: i64, e: i64) -> Cell {
    Cell { row: roastery - 1, col: cafe - 1, amount: Pair { q, e } }
}

pub fn p1() -> Sheet {
    sheet(&[3, 4], &[5, 2], &[4, 1, 2, 6])
}

/// The tableau that P1's round gives: it is finished.
pub fn p1_last() -> [Cell; 3] {
    [cell(1, 1, 1, -1), cell(1, 2, 2, 2), cell(2, 1, 4, 1)]
}

pub fn p3() -> Sheet {
    sheet(&[5, 5], &[5, 5], &[1; 4])
}

pub fn p4() -> Sheet {
    sheet(&[1, 3], &[2, 1, 1], &[9, 0, 0, 0, 0, 0])
}

/// P5's tableau, of P4's sheet: it is finished.
pub fn p5() -> [Cell; 4] {
    [cell(1, 3, 1, 1), cell(2, 1, 2, 0), cell(2, 2, 1, 0), cell(2, 3, 0, 1)]
}

pub fn p6() -> Sheet {
    sheet(&[1], &[1], &[0])
}

pub fn p7() -> Sheet {
    sheet(&[1_000_000], &[1_000_000], &[1_000_000])
}

/// P8's first sheet: a bag stays at home.
pub fn p8() -> Sheet {
    sheet(&[3], &[2], &[0])
}

/// P9's first tableau, of P3's sheet: no pair above (0, 0) at (1,2).
pub fn p9() -> [Cell; 3] {
    [cell(1, 1, 5, 0), cell(1, 2, 0, 0), cell(2, 2, 5, 1)]
}

/// The largest sheet, every lane at this cost.
pub fn full(cost: i64) -> Sheet {
    sheet(&[1_000_000; MAX_SIDE], &[1_000_000; MAX_SIDE], &[cost; MAX_LANES])
}

pub fn largest() -> Sheet {
    full(1_000_000)
}

/// The first roastery is dear, and keeps the surplus of two bags.
pub fn dear() -> Sheet {
    sheet(&[3, 3], &[4], &[5, 1])
}

/// The tableau that a round on its start gives: it is finished. The second column is the extra café's.
pub fn dear_last() -> [Cell; 3] {
    [cell(1, 1, 1, -1), cell(1, 2, 2, 2), cell(2, 1, 3, 1)]
}

/// One roastery with so many bags, and so many cafés that want a bag each, at 1 cent.
pub fn wide(supply: u64, cafes: usize) -> Sheet {
    sheet(&[supply], &vec![1; cafes], &vec![1; cafes])
}

/// The largest sheet that may have a surplus: 32 roasteries and 31 cafés.
pub fn largest_with_surplus() -> Sheet {
    let cafes = MAX_SIDE - 1;
    sheet(&[1_000_000; MAX_SIDE], &vec![1_000_000; cafes], &vec![1_000_000; MAX_SIDE * cafes])
}

/// The second roastery earns, and the first keeps the surplus of two bags.
pub fn earns() -> Sheet {
    sheet(&[3, 3], &[4], &[1, -5])
}

/// Costs of both signs.
pub fn both_signs() -> Sheet {
    sheet(&[2, 3], &[1, 2, 2], &[-1, 0, -1, -1, 0, 2])
}

/// The tableau that two rounds on its start give: it is finished.
pub fn both_signs_last() -> [Cell; 4] {
    [cell(1, 3, 2, 1), cell(2, 1, 1, 0), cell(2, 2, 2, 0), cell(2, 3, 0, 1)]
}

/// The first roastery has nothing and the second café is closed, and there is a surplus of seven bags.
pub fn closed() -> Sheet {
    sheet(&[0, 20, 14], &[12, 0, 15], &[60, 45, 90, 95, 70, 110, 130, 80, 75])
}

/// The tableau that a round on its start gives: it is finished. The fourth column is the extra café's.
pub fn closed_last() -> [Cell; 4] {
    [cell(2, 1, 12, 0), cell(2, 3, 1, -1), cell(2, 4, 7, 2), cell(3, 3, 14, 1)]
}

/// P1's sheet after a roastery that has nothing.
pub fn first_empty() -> Sheet {
    sheet(&[0, 3, 4], &[5, 2], &[7, -3, 4, 1, 2, 6])
}

/// P1's sheet before a café that is closed.
pub fn last_closed() -> Sheet {
    sheet(&[3, 4], &[5, 2, 0], &[4, 1, 3, 2, 6, 9])
}

/// The largest sheet, but the first of each two roasteries has nothing, and the second of each two cafés is closed.
pub fn half_closed() -> Sheet {
    let halves = |first: u64, second: u64| [first, second].repeat(MAX_SIDE / 2);
    Sheet { supply: halves(0, 1_000_000), demand: halves(1_000_000, 0), ..largest() }
}

/// How many columns a tableau of the sheet has: with a surplus, one for the extra café.
pub fn columns(sheet: &Sheet) -> usize {
    let surplus = sheet.supply.iter().sum::<u64>() > sheet.demand.iter().sum();
    sheet.demand.len() + usize::from(surplus)
}

/// What a round on a finished tableau gives, with these prices.
pub fn finished(roasteries: &[i64], cafes: &[i64]) -> Result<Round, Refusal> {
    let (mut u, mut v) = ([0; MAX_SIDE], [0; MAX_SIDE]);
    u[..roasteries.len()].copy_from_slice(roasteries);
    v[..cafes.len()].copy_from_slice(cafes);
    Ok(Round::Finished { u, v })
}
